//! A stand-in for the crate `image`: the items that `bindings/rust/src/integration.rs` uses, with the same signatures.

use std::io;

/// How a pixel is stored.
#[derive(Debug, Clone, Copy, PartialEq, Eq)]
pub enum ColorType {
    L8,
}

/// How a pixel was stored.
#[derive(Debug, Clone, Copy, PartialEq, Eq)]
pub enum ExtendedColorType {
    L1,
}

#[derive(Debug)]
pub enum ImageError {
    Decoding(error::DecodingError),
    IoError(io::Error),
}

pub type ImageResult<T> = Result<T, ImageError>;

pub trait ImageDecoder {
    fn dimensions(&self) -> (u32, u32);
    fn color_type(&self) -> ColorType;
    fn original_color_type(&self) -> ExtendedColorType;
    fn read_image(self, buf: &mut [u8]) -> ImageResult<()>
    where
        Self: Sized;
    fn read_image_boxed(self: Box<Self>, buf: &mut [u8]) -> ImageResult<()>;
}

pub mod error {
    use std::error::Error;

    #[derive(Debug)]
    pub enum ImageFormatHint {
        Name(String),
    }

    #[derive(Debug)]
    pub struct DecodingError(pub ImageFormatHint, pub Box<dyn Error + Send + Sync>);

    impl DecodingError {
        pub fn new(hint: ImageFormatHint, error: impl Into<Box<dyn Error + Send + Sync>>) -> Self {
            Self(hint, error.into())
        }
    }
}

pub mod hooks {
    use crate::{ImageDecoder, ImageResult};
    use std::collections::HashMap;
    use std::ffi::{OsStr, OsString};
    use std::io::{self, BufRead, Cursor, Read, Seek, SeekFrom};
    use std::sync::{LazyLock, Mutex};

    /// A reader of any kind.
    pub struct GenericReader<'a>(Cursor<&'a [u8]>);

    impl Read for GenericReader<'_> {
        fn read(&mut self, buf: &mut [u8]) -> io::Result<usize> {
            self.0.read(buf)
        }
    }

    impl BufRead for GenericReader<'_> {
        fn fill_buf(&mut self) -> io::Result<&[u8]> {
            self.0.fill_buf()
        }

        fn consume(&mut self, amount: usize) {
            self.0.consume(amount);
        }
    }

    impl Seek for GenericReader<'_> {
        fn seek(&mut self, place: SeekFrom) -> io::Result<u64> {
            self.0.seek(place)
        }
    }

    pub type DecodingHook =
        Box<dyn for<'a> Fn(GenericReader<'a>) -> ImageResult<Box<dyn ImageDecoder + 'a>> + Send + Sync>;

    static DECODING: LazyLock<Mutex<HashMap<OsString, DecodingHook>>> = LazyLock::new(Mutex::default);
    static DETECTION: Mutex<Vec<(OsString, &[u8])>> = Mutex::new(Vec::new());

    pub fn decoding_hook_registered(extension: &OsStr) -> bool {
        DECODING.lock().unwrap().contains_key(extension)
    }

    pub fn register_decoding_hook(extension: OsString, hook: DecodingHook) -> bool {
        DECODING.lock().unwrap().insert(extension, hook).is_none()
    }

    pub fn register_format_detection_hook(extension: OsString, signature: &'static [u8], _mask: Option<&'static [u8]>) {
        DETECTION.lock().unwrap().push((extension, signature));
    }

    /// What the hook of bytes that begin so makes of them: the size and the pixels.
    pub fn decoded(bytes: &[u8]) -> Option<ImageResult<((u32, u32), Vec<u8>)>> {
        let detection = DETECTION.lock().unwrap();
        let (extension, _) = detection.iter().find(|(_, signature)| bytes.starts_with(signature))?;
        let hooks = DECODING.lock().unwrap();
        Some(hooks[extension](GenericReader(Cursor::new(bytes))).and_then(|decoder| {
            let (width, height) = decoder.dimensions();
            let mut image = vec![7; width as usize * height as usize];
            decoder.read_image_boxed(&mut image).map(|()| ((width, height), image))
        }))
    }
}

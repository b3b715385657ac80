//! Pages.

use crate::context::DecoderContext;
use crate::decoder::{Decoder, push_rows};
use crate::error::Result;
use crate::globals::Globals;
use crate::library::{self, PageInfo, Reading};
use crate::{DecodeSettings, LeftOut, PassedSegment, image};

/// Room for one row at least: a row has at most 65535 pixels.
const BLOCK: usize = 8192;

/// A page of a [`File`](crate::File), or one that is embedded in another format such as PDF.
#[derive(Debug)]
pub struct Page<'a> {
    source: Source<'a>,
    info: PageInfo,
    left_out: LeftOut,
    /// Whether nothing that it shares with other pages is known to lack something.
    is_shared_whole: bool,
}

#[derive(Debug)]
enum Source<'a> {
    Embedded(library::Page),
    File { file: &'a library::File<'a>, index: usize },
}

impl<'a> Page<'a> {
    /// Reads a page without a file header, as a PDF file has it in a stream with the filter `/JBIG2Decode`.
    ///
    /// # Errors
    ///
    /// The first fault of the segments' headers or of the page information, or want of memory.
    pub fn new_embedded(data: &'a [u8], globals: Option<&'a Globals>, settings: &DecodeSettings) -> Result<Self> {
        Self::read(data, globals, settings.reading())
    }

    /// Reads a page as a lenient decoder does, and leaves out what that refuses: the list of its segments ends at a bad
    /// header, a dictionary that fails is passed over, and an open height that no stripe tells is that of the lowest
    /// region. `hayro-jbig2` 0.4.0 has no such call.
    ///
    /// # Errors
    ///
    /// A page without information or with a size that no page may have, or want of memory.
    pub fn salvaged_embedded(data: &'a [u8], globals: Option<&'a Globals>) -> Result<Self> {
        Self::read(data, globals, Reading::Salvage)
    }

    fn read(data: &[u8], globals: Option<&Globals>, reading: Reading) -> Result<Self> {
        let page = library::Page::new(data, globals.map(|globals| &globals.inner), reading)?;
        let (info, left_out) = (page.info()?, page.left_out()?);
        let is_shared_whole = globals.is_none_or(|globals| globals.left_out().passed_over.count == 0);
        Ok(Self { source: Source::Embedded(page), info, left_out, is_shared_whole })
    }

    pub(crate) fn of_file(file: &'a library::File<'a>, index: usize, info: PageInfo) -> Self {
        let left_out = file.left_out();
        let is_shared_whole = left_out.passed_over.count == 0;
        Self { source: Source::File { file, index }, info, left_out, is_shared_whole }
    }

    /// What was left out of the list of the page's segments; of a page of a file, what was left out of the file.
    /// [`DecoderContext::passed_over`] has what the page's own segments lack, once it is decoded; `left_out` of globals
    /// has what these lack. `hayro-jbig2` 0.4.0 has no such call.
    pub fn left_out(&self) -> LeftOut {
        self.left_out
    }

    /// The segment at which the list of an embedded page's segments ends early, if it does. Lenient reading drops one that
    /// is cut off, salvage any that is refused. Of a page of a file this is the file's, which the page may not need: ask
    /// [`DecoderContext::is_complete`] after it is decoded. `hayro-jbig2` 0.4.0 has no such call.
    pub fn cut_off(&self) -> Option<PassedSegment> {
        self.left_out.cut_off
    }

    /// The number that the segments name the page by.
    pub fn number(&self) -> u32 {
        self.info.number
    }

    /// The width in pixels, from 1 to 65535.
    pub fn width(&self) -> u32 {
        self.info.width
    }

    /// The height in pixels, from 1 to 65535.
    pub fn height(&self) -> u32 {
        self.info.height
    }

    /// Width and height in pixels.
    pub fn dimensions(&self) -> (u32, u32) {
        (self.width(), self.height())
    }

    /// Decodes the page and passes it to `decoder`. The page may take 100 units of work for each of its pixels, and 2^24
    /// at least; [`DecoderContext::set_work_limit`] sets another limit for [`decode_with`](Self::decode_with).
    ///
    /// # Errors
    ///
    /// The first fault, or want of memory or of work; `decoder` is not called then.
    pub fn decode<D: Decoder>(&self, decoder: &mut D) -> Result<()> {
        self.decode_with(decoder, &mut DecoderContext::default())
    }

    /// As [`decode`](Self::decode), in the room of earlier pages.
    ///
    /// # Errors
    ///
    /// As of [`decode`](Self::decode); `ctx` serves the next page all the same.
    pub fn decode_with<D: Decoder>(&self, decoder: &mut D, ctx: &mut DecoderContext) -> Result<()> {
        self.draw(ctx)?;
        let mut block = [0; BLOCK];
        let row_bytes = self.row_bytes();
        let most = BLOCK / row_bytes;
        for y in (0..self.height()).step_by(most) {
            let count = most.min((self.height() - y) as usize);
            let rows = &mut block[..count * row_bytes];
            ctx.inner.copy_rows(y as usize * row_bytes, rows)?;
            push_rows(rows, self.width(), decoder);
        }
        Ok(())
    }

    /// Decodes the page to a byte for each pixel, rows from the top: 0 is black and 255 is white. Only
    /// [`decode_with`](Self::decode_with) takes another limit of work, and its context tells whether the page is
    /// complete.
    ///
    /// # Errors
    ///
    /// The first fault, or want of memory or of work; `image` is as it was then.
    ///
    /// # Panics
    ///
    /// If `image` has not width times height bytes.
    pub fn read_image(&self, image: &mut [u8]) -> Result<()> {
        self.read_image_with(image, &mut DecoderContext::default())
    }

    pub(crate) fn read_image_with(&self, image: &mut [u8], ctx: &mut DecoderContext) -> Result<()> {
        let size = self.width() as usize * self.height() as usize;
        assert_eq!(image.len(), size, "a page of another size");
        self.decode_with(&mut image::Writer::new(image), ctx)
    }

    /// Decodes the page to packed rows, from the top: a bit for each pixel, 1 is black, the leftmost the highest of its
    /// byte. A row has `width.div_ceil(8)` bytes, whose last bits are 0 after the width. As with
    /// [`read_image`](Self::read_image), nothing tells whether the page is complete. `hayro-jbig2` 0.4.0 has no such
    /// call.
    ///
    /// # Errors
    ///
    /// The first fault, or want of memory or of work; `rows` is as it was then.
    ///
    /// # Panics
    ///
    /// If `rows` has not `width.div_ceil(8)` times height bytes.
    pub fn read_packed(&self, rows: &mut [u8]) -> Result<()> {
        assert_eq!(rows.len(), self.row_bytes() * self.height() as usize, "a page of another size");
        let mut context = DecoderContext::default();
        self.draw(&mut context)?;
        context.inner.copy_rows(0, rows)
    }

    fn row_bytes(&self) -> usize {
        self.width().div_ceil(8) as usize
    }

    fn draw(&self, ctx: &mut DecoderContext) -> Result<()> {
        let work = ctx.limit.of_page(self.width(), self.height());
        let drawn = match &self.source {
            Source::Embedded(page) => page.draw(&mut ctx.inner, work),
            Source::File { file, index } => file.draw(*index, &mut ctx.inner, work),
        };
        ctx.is_shared_whole = self.is_shared_whole && drawn.is_ok();
        drawn
    }
}

// Draws an image of a PDF file by PDFium's decoder.
//
// usage: pdfium-jbig2 STREAM GLOBALS WIDTH HEIGHT OUT: OUT is a PBM file; GLOBALS may be empty. Status 1 where PDFium refuses.

#include <cstdint>
#include <cstdio>
#include <cstdlib>
#include <fstream>
#include <iterator>
#include <string>
#include <vector>

#include "core/fxcodec/jbig2/jbig2_context.h"
#include "core/fxcodec/jbig2/jbig2_decoder.h"
#include "core/fxcodec/jbig2/jbig2_document_context.h"

static std::vector<uint8_t> bytes_of(const char* name) {
  std::ifstream file(name, std::ios::binary);
  return {std::istreambuf_iterator<char>(file), {}};
}

int main(int count, char** words) {
  if (count != 6) {
    fputs("usage: pdfium-jbig2 STREAM GLOBALS WIDTH HEIGHT OUT\n", stderr);
    return 2;
  }
  const std::vector<uint8_t> stream = bytes_of(words[1]), globals = bytes_of(words[2]);
  const uint32_t width = strtoul(words[3], nullptr, 10), height = strtoul(words[4], nullptr, 10);
  // PDFium wants rows of whole words.
  const uint32_t pitch = (width + 31) / 32 * 4, stride = (width + 7) / 8;
  std::vector<uint8_t> rows(size_t{pitch} * height);

  JBig2_DocumentContext document;
  Jbig2Context context;
  const FXCODEC_STATUS status = Jbig2Decoder::StartDecode(&context, &document, width, height, stream, 1, globals, 2, rows,
                                                          pitch, nullptr, false);
  if (status != FXCODEC_STATUS::kDecodeFinished) {
    fputs("error: refused\n", stderr);
    return 1;
  }
  std::ofstream out(words[5], std::ios::binary);
  out << "P4\n" << width << " " << height << "\n";
  for (uint32_t y = 0; y < height; y++) {
    for (uint32_t x = 0; x < stride; x++) {
      // PDFium's white is 1.
      out.put(static_cast<char>(~rows[size_t{y} * pitch + x]));
    }
  }
  return out.flush() ? 0 : 1;
}

/* tiff FILE CHANNELS: libtiff reads a TIFF of 32-bit floats; its words, row by row, go to standard output. */
#include <stdio.h>
#include <stdlib.h>
#include <tiffio.h>

int main(int count, char **words) {
    if (count != 3) return 2;
    TIFF *tiff = TIFFOpen(words[1], "r");
    if (tiff == NULL) return 1;
    uint32_t height = 0;
    uint16_t bits = 0, channels = 0, format = 0, extra = 0, *kinds = NULL;
    TIFFGetField(tiff, TIFFTAG_IMAGELENGTH, &height);
    TIFFGetField(tiff, TIFFTAG_BITSPERSAMPLE, &bits);
    TIFFGetField(tiff, TIFFTAG_SAMPLESPERPIXEL, &channels);
    TIFFGetField(tiff, TIFFTAG_SAMPLEFORMAT, &format);
    TIFFGetFieldDefaulted(tiff, TIFFTAG_EXTRASAMPLES, &extra, &kinds);
    if (bits != 32 || format != SAMPLEFORMAT_IEEEFP || channels != atoi(words[2])) return 1;
    /* Alpha, and the colours not multiplied with it. */
    if (extra != (channels == 4) || (extra == 1 && kinds[0] != EXTRASAMPLE_UNASSALPHA)) return 1;
    size_t size = (size_t)TIFFScanlineSize(tiff);
    char *row = malloc(size);
    for (uint32_t y = 0; y < height; y++) {
        if (row == NULL || TIFFReadScanline(tiff, row, y, 0) < 0) return 1;
        fwrite(row, 1, size, stdout);
    }
    free(row);
    TIFFClose(tiff);
    return 0;
}

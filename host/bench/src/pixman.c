// What the benchmark asks of pixman.
#include <pixman.h>

// pixman's operator for ours, or -1: Porter and Duff's and the blend modes that both have.
int pixman_operator(int number) {
    switch (number) {
    case 0: return PIXMAN_OP_OVER;
    case 1: return PIXMAN_OP_IN;
    case 2: return PIXMAN_OP_OUT;
    case 3: return PIXMAN_OP_ATOP;
    case 4: return PIXMAN_OP_XOR;
    case 5: return PIXMAN_OP_ADD;
    case 6: return PIXMAN_OP_MULTIPLY;
    case 7: return PIXMAN_OP_SCREEN;
    case 8: return PIXMAN_OP_OVERLAY;
    case 9: return PIXMAN_OP_DARKEN;
    case 10: return PIXMAN_OP_LIGHTEN;
    case 11: return PIXMAN_OP_DIFFERENCE;
    case 12: return PIXMAN_OP_HARD_LIGHT;
    case 13: return PIXMAN_OP_SOFT_LIGHT;
    case 14: return PIXMAN_OP_COLOR_DODGE;
    case 15: return PIXMAN_OP_COLOR_BURN;
    case 16: return PIXMAN_OP_CLEAR;
    case 17: return PIXMAN_OP_SRC;
    case 19: return PIXMAN_OP_OVER_REVERSE;
    case 20: return PIXMAN_OP_IN_REVERSE;
    case 21: return PIXMAN_OP_OUT_REVERSE;
    case 22: return PIXMAN_OP_ATOP_REVERSE;
    case 29: return PIXMAN_OP_EXCLUSION;
    default: return -1;
    }
}

// The image is the samples themselves.
void *pixman_image(int side, float *samples) {
    return pixman_image_create_bits(PIXMAN_rgba_float, side, side, (uint32_t *)samples, 16 * side);
}

void pixman_free(void *image) { pixman_image_unref(image); }

int pixman_compose(int operator, void *src, void *dst, int side) {
    pixman_image_composite32(operator, src, 0, dst, 0, 0, 0, 0, 0, 0, side, side);
    return 1;
}

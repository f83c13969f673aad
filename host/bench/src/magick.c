// What the benchmark asks of ImageMagick's MagickCore, on one thread.
#include <magick/MagickCore.h>

// ImageMagick's operator for ours, or -1: those that both have and that take no arguments.
int magick_operator(int number) {
    static const int shared[] = {
        OverCompositeOp, InCompositeOp, OutCompositeOp, AtopCompositeOp, XorCompositeOp, PlusCompositeOp, MultiplyCompositeOp,
        ScreenCompositeOp, OverlayCompositeOp, DarkenCompositeOp, LightenCompositeOp, DifferenceCompositeOp,
        HardLightCompositeOp, SoftLightCompositeOp, ColorDodgeCompositeOp, ColorBurnCompositeOp, ClearCompositeOp,
        SrcCompositeOp, DstCompositeOp, DstOverCompositeOp, DstInCompositeOp, DstOutCompositeOp, DstAtopCompositeOp,
        MinusDstCompositeOp, MinusSrcCompositeOp, DivideDstCompositeOp, DivideSrcCompositeOp, ModulusAddCompositeOp,
        ModulusSubtractCompositeOp, ExclusionCompositeOp, LinearBurnCompositeOp, LinearDodgeCompositeOp,
        LinearLightCompositeOp, VividLightCompositeOp, PinLightCompositeOp, HardMixCompositeOp, PegtopLightCompositeOp};
    switch (number) {
    case 48: return DarkenIntensityCompositeOp;
    case 49: return LightenIntensityCompositeOp;
    case 50: return HueCompositeOp;
    case 51: return SaturateCompositeOp;
    case 52: return LuminizeCompositeOp;
    case 53: return ColorizeCompositeOp;
    default: return number < (int)(sizeof shared / sizeof *shared) ? shared[number] : -1;
    }
}

// The samples are copied into the image, which has floats from 0 to 65535.
void *magick_image(int side, float *samples) {
    if (!IsMagickCoreInstantiated()) {
        MagickCoreGenesis(0, MagickFalse);
        SetMagickResourceLimit(ThreadResource, 1);
    }
    ExceptionInfo *exception = AcquireExceptionInfo();
    Image *image = ConstituteImage(side, side, "RGBA", FloatPixel, samples, exception);
    DestroyExceptionInfo(exception);
    return image;
}

void magick_free(void *image) { DestroyImage(image); }

int magick_compose(int operator, void *src, void *dst, int side) {
    (void)side;
    return CompositeImage(dst, operator, src, 0, 0);
}

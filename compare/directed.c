/* The machine's fma in the directions of request A.3. */
#include <fenv.h>
#include <math.h>
#include <stddef.h>

/* For clang. GCC does not know it, and goes by -frounding-math. */
#pragma STDC FENV_ACCESS ON

/* By the direction's byte. */
static const int modes[] = {FE_TONEAREST, FE_TOWARDZERO, FE_UPWARD, FE_DOWNWARD};

/* Three operands for each result. The mode is set once for all of them. */
void directed_fmas(unsigned char direction, const double (*operands)[3], double *results, size_t count)
{
    fesetround(modes[direction]);
    for (size_t i = 0; i < count; i++)
        results[i] = fma(operands[i][0], operands[i][1], operands[i][2]);
    fesetround(FE_TONEAREST);
}

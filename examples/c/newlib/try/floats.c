#include <float.h>
#include <math.h>
#include <stdio.h>
#include <stdlib.h>

int main(void)
{
    double sum = 0;
    float product = 1;
    for (int i = 1; i <= 20; i++) {
        sum += 1.0 / i;
        product *= 1.0f + 1.0f / (float)i;
    }
    printf("%8.3f %.10f %g %e\n", sum, sum, (double)product, (double)product);
    printf("%.9f %.9f %.9f\n", sqrt(2.0), exp(1.0), pow(2.0, 0.5));
    printf("%.9f %.9f %.9f\n", sin(1.0), atan2(1.0, 2.0), log(10.0));
    printf("%d %u %lld %.1f\n", (int)-3.7, (unsigned)3000000000.0, (long long)1e15, (double)123456789012345LL);
    printf("%d %d %d\n", isnan(NAN), isinf(HUGE_VAL), (int)(0.1 + 0.2 == 0.3));
    printf("%g %g %g\n", DBL_MAX, DBL_MIN, (double)FLT_EPSILON);
    printf("%a %g\n", 1.5, fmod(10.5, 3.0));
    return 0;
}

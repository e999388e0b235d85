#include <neelukudam.h>
#include <stdio.h>

int main(void) {
    static uint8_t image[NEELUKUDAM_MOST_IMAGE_BYTES + 1];
    static int64_t results[6 * 512];
    static uint32_t arcs[512];
    FILE *file = fopen("circuits/p1.image", "rb");
    size_t bytes = file ? fread(image, 1, sizeof image, file) : 0;
    neelukudam_timing_answer a = neelukudam_timing(image, bytes, results, 6 * 512, arcs, 512);
    printf("refusal %u, loop of %u arcs, missed %u setups and %u holds\n", a.refusal, a.loop_arcs, a.missed_setups, a.missed_holds);
    printf("setup slack of 0: %lld\n", (long long)results[NEELUKUDAM_SETUP_SLACK]);
    return 0;
}

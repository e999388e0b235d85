#include <neelukudam.h>
#include <stdio.h>

int main(void) {
    static uint8_t text[NEELUKUDAM_MOST_TEXT_BYTES + 1], image[NEELUKUDAM_MOST_IMAGE_BYTES];
    static int64_t results[6 * 512];
    static uint32_t arcs[512];
    FILE *file = fopen("circuits/p1.text", "rb");
    size_t bytes = file ? fread(text, 1, sizeof text, file) : 0;
    neelukudam_text_answer t = neelukudam_image_from_text(text, bytes, image, sizeof image);
    neelukudam_timing_answer a;
    if (t.refusal) {
        printf("refused %u, %s %u\n", t.refusal, t.refusal == NEELUKUDAM_REFUSED_LINE ? "line" : "record", t.record);
        return 1;
    }
    a = neelukudam_timing(image, t.image_bytes, results, 6 * 512, arcs, 512);
    printf("an image of %u bytes, refusal %u, setup slack of 0: %lld\n", t.image_bytes, a.refusal, (long long)results[NEELUKUDAM_SETUP_SLACK]);
    return 0;
}

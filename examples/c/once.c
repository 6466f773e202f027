/* Formats a short module in one call, and writes its canonical text, or what is wrong with it. */
#include <stdio.h>
#include <string.h>

#include "wgsl.h"

int main(void) {
    const char *text = "const N=0x1f;";
    size_t size = strlen(text);
    struct wgsl_answer answer;
    char buffer[4096];
    uint32_t status = wgsl_format(text, size, buffer, sizeof buffer, &answer);
    if (status == WGSL_DONE) {
        fwrite(buffer, 1, answer.size, stdout);
    } else if (status == WGSL_REFUSED && answer.size <= sizeof buffer) {
        fprintf(stderr, "%zu..%zu: %s\n", answer.start, answer.end, buffer);
    }
    return (int)status;
}

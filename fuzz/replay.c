/* Runs decode.c over files without a fuzzer: replay FILE... */
#include <stdint.h>
#include <stdio.h>
#include <stdlib.h>

int LLVMFuzzerTestOneInput(const uint8_t *bytes, size_t size);

int main(int count, char **words)
{
    for (int i = 1; i < count; i++) {
        FILE *stream = fopen(words[i], "rb");
        long length = -1;
        if (stream == NULL || fseek(stream, 0, SEEK_END) != 0 || (length = ftell(stream)) < 0
            || fseek(stream, 0, SEEK_SET) != 0) {
            fprintf(stderr, "replay: %s can't be read\n", words[i]);
            return 1;
        }
        uint8_t *bytes = malloc((size_t)length + 1);
        if (bytes == NULL || fread(bytes, 1, (size_t)length, stream) != (size_t)length)
            return 1;
        fclose(stream);
        LLVMFuzzerTestOneInput(bytes, (size_t)length);
        free(bytes);
    }
    printf("%d files\n", count - 1);
    return 0;
}

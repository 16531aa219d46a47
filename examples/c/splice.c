/*
 * Puts code of another module into a module, under a seed:
 *
 *     splice SEED MODULE OTHER NEW
 *
 * The status is 2 where the library writes no module, and 1 where the words can't be read, or a file can't be read or written.
 */
#include <teddertempo.h>

#include <stdio.h>
#include <stdlib.h>

/* How many bytes more than the old module the new one may have. */
enum { EXTRA = 1 << 16 };

/* Reads a file into a new buffer with EXTRA bytes of room behind it; null where that fails. */
static uint8_t *read_file(const char *name, size_t *size)
{
    FILE *file = fopen(name, "rb");
    uint8_t *data = NULL;
    long end;

    if (file == NULL) {
        return NULL;
    }
    if (fseek(file, 0, SEEK_END) == 0 && (end = ftell(file)) >= 0 && fseek(file, 0, SEEK_SET) == 0) {
        *size = (size_t)end;
        data = malloc(*size + EXTRA);
        if (data != NULL && fread(data, 1, *size, file) != *size) {
            free(data);
            data = NULL;
        }
    }
    fclose(file);
    return data;
}

static int write_file(const char *name, const uint8_t *data, size_t size)
{
    FILE *file = fopen(name, "wb");
    int is_written;

    if (file == NULL) {
        return 0;
    }
    is_written = fwrite(data, 1, size, file) == size;
    return (fclose(file) == 0) && is_written;
}

int main(int count, char **words)
{
    uint8_t *data = NULL, *other = NULL;
    size_t size = 0, other_size = 0, new_size;
    int status = 1;
    char *end;

    if (count != 5) {
        fprintf(stderr, "usage: splice SEED MODULE OTHER NEW\n");
        return 1;
    }
    data = read_file(words[2], &size);
    other = read_file(words[3], &other_size);
    if (data == NULL || other == NULL) {
        fprintf(stderr, "splice: %s can't be read\n", data == NULL ? words[2] : words[3]);
    } else {
        new_size = teddertempo_splice(data, size, size + EXTRA, other, other_size, strtoull(words[1], &end, 10));
        if (new_size == 0) {
            status = 2;
        } else if (write_file(words[4], data, new_size)) {
            status = 0;
        }
    }
    free(data);
    free(other);
    return status;
}

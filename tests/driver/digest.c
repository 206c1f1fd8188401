/* digest FILE: the driver's SHA-256 of the first 0, 1, .. 200 bytes of a file, as far as it goes, and of all of it. Ends with
 * 1 if one of them is another where the bytes come in pieces. */
#include <stdio.h>
#include <stdlib.h>
#include <string.h>

#include "files.h"
#include "sha256.h"

#define LENGTHS 200
#define FILE_MOST 67108864

/* In pieces of so many bytes, the first shorter by one. */
static bool in_pieces(const contents *file, size_t length, size_t size, const char *whole)
{
    char text[SHA256_TEXT];
    sha256 sum = sha256_start();
    size_t done = size - 1 < length ? size - 1 : length;
    sha256_add(&sum, file->bytes, done);
    for (; done < length; done += size)
        sha256_add(&sum, file->bytes + done, length - done < size ? length - done : size);
    sha256_end(&sum, text);
    return strcmp(text, whole) == 0;
}

static bool print_sum(const contents *file, size_t length)
{
    static const size_t sizes[] = {1, 7, 63, 64, 65, 128, 1000};
    char text[SHA256_TEXT];
    bool good = true;
    sha256_text(file->bytes, length, text);
    puts(text);
    for (size_t i = 0; i < sizeof sizes / sizeof sizes[0] && length <= 10 * LENGTHS; i++)
        good = in_pieces(file, length, sizes[i], text) && good;
    return good && in_pieces(file, length, 65536, text);
}

int main(int count, char **words)
{
    contents file;
    bool good = true;
    if (count != 2 || file_read(words[1], FILE_MOST, &file) != 0)
        return 1;
    for (size_t length = 0; length <= LENGTHS && length <= file.length; length++)
        good = print_sum(&file, length) && good;
    good = print_sum(&file, file.length) && good;
    free(file.bytes);
    return good ? 0 : 1;
}

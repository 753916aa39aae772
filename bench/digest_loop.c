/* Reads the lines of a text into a list, and writes the SHA-256 digest of each in hexadecimal. */
#include <openssl/evp.h>
#include <stdio.h>
#include <stdlib.h>
#include <string.h>

struct line {
    char *bytes;
    size_t length;
};

int main(int count, char **words)
{
    if (count != 2)
        return 2;
    FILE *text = fopen(words[1], "rb");
    if (!text)
        return 4;
    struct line *lines = NULL;
    size_t used = 0, room = 0, size = 0;
    char *bytes = NULL;
    ssize_t length;
    while ((length = getline(&bytes, &size, text)) >= 0) {
        if (length > 0 && bytes[length - 1] == '\n')
            length--;
        if (used == room) {
            room = room ? 2 * room : 1024;
            lines = realloc(lines, room * sizeof *lines);
            if (!lines)
                return 6;
        }
        lines[used].bytes = malloc(length ? (size_t)length : 1);
        if (!lines[used].bytes)
            return 6;
        memcpy(lines[used].bytes, bytes, (size_t)length);
        lines[used].length = (size_t)length;
        used++;
    }
    fclose(text);
    static const char digits[] = "0123456789abcdef";
    EVP_MD_CTX *context = EVP_MD_CTX_new();
    for (size_t i = 0; i < used; i++) {
        unsigned char digest[32];
        char out[65];
        if (!EVP_DigestInit_ex(context, EVP_sha256(), NULL) ||
            !EVP_DigestUpdate(context, lines[i].bytes, lines[i].length) ||
            !EVP_DigestFinal_ex(context, digest, NULL))
            return 1;
        for (int k = 0; k < 32; k++) {
            out[2 * k] = digits[digest[k] >> 4];
            out[2 * k + 1] = digits[digest[k] & 15];
        }
        out[64] = '\n';
        fwrite(out, 1, 65, stdout);
    }
    EVP_MD_CTX_free(context);
    return 0;
}

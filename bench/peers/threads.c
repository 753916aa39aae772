/* The jobs of bench/peers.py in C, with POSIX threads and OpenSSL: OPERATION BLOCK THREADS TEXT.., where the operation is digest,
   length or contains. Each thread takes the next block of lines of any text until none is left. */
#define _GNU_SOURCE
#include <openssl/sha.h>
#include <pthread.h>
#include <stdatomic.h>
#include <stdio.h>
#include <stdlib.h>
#include <string.h>

struct line {
    const char *bytes;
    size_t length;
    char *value;
    size_t value_length;
};

struct text {
    char *bytes;
    size_t length, lines;
    struct line *line;
};

static struct text *texts;
static size_t text_count, block;
static const char *operation;
static atomic_size_t next_block;

static void *checked(void *memory)
{
    if (!memory)
        exit(6);
    return memory;
}

static void work_on(struct line *it)
{
    static const char digits[] = "0123456789abcdef";
    if (operation[0] == 'd') {
        unsigned char digest[32];
        SHA256((const unsigned char *)it->bytes, it->length, digest);
        it->value = checked(malloc(it->value_length = 64));
        for (int k = 0; k < 32; k++) {
            it->value[2 * k] = digits[digest[k] >> 4];
            it->value[2 * k + 1] = digits[digest[k] & 15];
        }
    } else if (operation[0] == 'l') {
        it->value = checked(malloc(24));
        it->value_length = (size_t)snprintf(it->value, 24, "%zu", it->length);
    } else if (memmem(it->bytes, it->length, "77", 2)) {
        it->value = checked(malloc(it->length));
        it->value_length = it->length;
        memcpy(it->value, it->bytes, it->length);
    }
}

static void *work(void *unused)
{
    for (;;) {
        size_t number = atomic_fetch_add(&next_block, 1), at = 0;
        for (; at < text_count && number >= (texts[at].lines + block - 1) / block; at++)
            number -= (texts[at].lines + block - 1) / block;
        if (at == text_count)
            return unused;
        size_t end = (number + 1) * block < texts[at].lines ? (number + 1) * block : texts[at].lines;
        for (size_t k = number * block; k < end; k++)
            work_on(&texts[at].line[k]);
    }
}

static void load(struct text *it, const char *name)
{
    FILE *file = fopen(name, "rb");
    if (!file || fseek(file, 0, SEEK_END))
        exit(4);
    it->length = (size_t)ftell(file);
    rewind(file);
    it->bytes = checked(malloc(it->length + 1));
    if (fread(it->bytes, 1, it->length, file) != it->length)
        exit(4);
    fclose(file);
    for (size_t at = 0; at < it->length; at++)
        it->lines += it->bytes[at] == '\n';
    it->lines += it->length && it->bytes[it->length - 1] != '\n';
    it->line = checked(calloc(it->lines + 1, sizeof *it->line));
    const char *begin = it->bytes, *end = it->bytes + it->length;
    for (size_t k = 0; k < it->lines; k++) {
        const char *stop = memchr(begin, '\n', (size_t)(end - begin));
        it->line[k].bytes = begin;
        it->line[k].length = (size_t)((stop ? stop : end) - begin);
        begin = stop + 1;
    }
}

int main(int count, char **words)
{
    if (count < 5)
        return 2;
    operation = words[1];
    block = strtoul(words[2], NULL, 10);
    size_t threads = strtoul(words[3], NULL, 10);
    text_count = (size_t)count - 4;
    texts = checked(calloc(text_count, sizeof *texts));
    for (size_t at = 0; at < text_count; at++)
        load(&texts[at], words[at + 4]);
    pthread_t *others = checked(calloc(threads, sizeof *others));
    for (size_t k = 1; k < threads; k++)
        if (pthread_create(&others[k], NULL, work, NULL))
            return 6;
    work(NULL);
    for (size_t k = 1; k < threads; k++)
        pthread_join(others[k], NULL);
    for (size_t at = 0; at < text_count; at++) {
        size_t kept = 0;
        for (size_t k = 0; k < texts[at].lines; k++)
            kept += texts[at].line[k].value != NULL;
        printf("job %c finished %zu\n", (char)('a' + at), kept);
        for (size_t k = 0; k < texts[at].lines; k++)
            if (texts[at].line[k].value) {
                fwrite(texts[at].line[k].value, 1, texts[at].line[k].value_length, stdout);
                putchar('\n');
            }
    }
    return 0;
}

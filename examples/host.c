/* A host. host MODEL TABLE [FINDING] prints answer, place, second place and the symbol's name, a line for each check.
   cc host.c $(pkg-config --cflags --libs plaitcrumb) -o host */
#include <plaitcrumb.h>
#include <stdio.h>
#include <stdlib.h>

static uint8_t model[65536], bytes[65536]; /* one more than the longest, so that longer files are refused and not cut */

static size_t read_file(const char *path, uint8_t *to) {
    FILE *file = fopen(path, "rb");
    size_t length = file ? fread(to, 1, 65536, file) : 0;
    if (!file || fclose(file))
        exit((perror(path), 2));
    return length;
}

static void print(uint64_t result, size_t model_len) {
    uint64_t name = plaitcrumb_name(model, model_len, plaitcrumb_symbol(result));
    int length = (int)plaitcrumb_name_length(name);
    printf("%u %u %u %.*s\n", plaitcrumb_answer(result), plaitcrumb_place(result), plaitcrumb_second(result),
           length ? length : 1, length ? (const char *)model + plaitcrumb_name_start(name) : "-");
}

int main(int argc, char **argv) {
    if (argc < 3)
        return fprintf(stderr, "usage: host MODEL TABLE [FINDING]\n"), 2;
    size_t model_len = read_file(argv[1], model), bytes_len = read_file(argv[2], bytes);
    size_t nodes = plaitcrumb_nodes(model, model_len), symbols = plaitcrumb_symbols(model, model_len);
    uint8_t *work = malloc(nodes + symbols + 1); /* both rooms, one behind the other */
    if (!work)
        return 2;
    print(plaitcrumb_check_table(model, model_len, bytes, bytes_len, work, nodes), model_len);
    if (argc > 3) {
        bytes_len = read_file(argv[3], bytes);
        print(plaitcrumb_check_finding(model, model_len, bytes, bytes_len, work, nodes, work + nodes, symbols), model_len);
    }
    free(work);
    return 0;
}

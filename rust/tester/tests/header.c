/* A stranger's program: it uses the library through the header alone, on the header's own examples. */
#include <stdio.h>

#include "dairyhour.h"

static void print_bytes(const char *what, const uint8_t *bytes, size_t count)
{
    size_t i;
    printf("%s", what);
    for (i = 0; i < count; i++) {
        printf(" %02X", bytes[i]);
    }
    printf("\n");
}

int main(void)
{
    static const uint8_t row[8] = {0x4A, 0x50, 0x3E, 0x77, 0x10, 0x24, 0x46, 0x80};
    static const uint8_t short_string[1] = {0xE0};
    static const uint8_t sent[11] = {0x52, 0x53, 0x4D, 0x00, 0x01, 0x02, 0x01, 0x04, 0x00, 0x40, 0x80};
    static const uint8_t arrived[1] = {0x3C};
    uint8_t message[DH_LONGEST_MESSAGE];
    uint8_t string[DH_LONGEST_STRING];
    uint8_t rows[16];
    uint16_t fields[DH_MOST_FIELDS];
    size_t i;
    dh_answer answer;
    dh_layout layout;

    answer = dh_write(5, 3, 4, 4, row, sizeof row, message, sizeof message);
    printf("write %u %zu\n", (unsigned)answer.refusal, answer.value);
    print_bytes("message", message, answer.value);

    layout = dh_read(message, answer.value, fields, DH_MOST_FIELDS);
    printf("read %u %zu %zu %zu %zu\n", (unsigned)layout.refusal, layout.l1, layout.l2, layout.nc, layout.r);
    printf("fields");
    for (i = 0; i < layout.l1 + layout.l2 + layout.r; i++) {
        printf(" %u", (unsigned)fields[i]);
    }
    printf("\n");

    answer = dh_mend(4, 2, short_string, sizeof short_string, string, sizeof string);
    printf("mend %u %zu\n", (unsigned)answer.refusal, answer.value);
    print_bytes("string", string, 1);

    answer = dh_list(sent, sizeof sent, arrived, sizeof arrived, 6, rows, sizeof rows);
    printf("list %u %zu\n", (unsigned)answer.refusal, answer.value);
    print_bytes("rows", rows, answer.value);

    answer = dh_write(16, 1, 4, 1, row, sizeof row, message, sizeof message);
    printf("write %u %zu\n", (unsigned)answer.refusal, answer.value);
    layout = dh_read(message, 8, fields, DH_MOST_FIELDS);
    printf("read %u %zu %zu %zu %zu\n", (unsigned)layout.refusal, layout.l1, layout.l2, layout.nc, layout.r);
    answer = dh_mend(4, 5, short_string, sizeof short_string, string, sizeof string);
    printf("mend %u %zu\n", (unsigned)answer.refusal, answer.value);
    answer = dh_list(sent, sizeof sent, arrived, sizeof arrived, 6, rows, 1);
    printf("list %u %zu\n", (unsigned)answer.refusal, answer.value);
    answer = dh_list(sent, sizeof sent, arrived, sizeof arrived, 9, rows, sizeof rows);
    printf("list %u %zu\n", (unsigned)answer.refusal, answer.value);
    printf("limits %d %d %d %d\n", DH_LONGEST_MESSAGE, DH_MOST_FIELDS, DH_LONGEST_STRING, DH_LONGEST_LIST);
    return 0;
}

/*
 * Writes a message on a tag in memory: on a Type 2 tag, on a Type 3 tag, and on a Type 6 tag. Asks
 * for the list, has it judged (Type 2 only), gives it to the tag command by command, and reads the
 * tag after each command. The tags are empty: on Type 2 and Type 6 the length is 0 already, so the
 * list leaves out the command that would set it to 0. See README.md for how to compile.
 */
#include <inttypes.h>
#include <stdio.h>

#include "zanfirotta.h"

static const uint8_t message[] = {0xD1, 0x01, 0x04, 0x54, 0x02, 0x65, 0x6E, 0x21};

static int refused(const char *what, uint64_t answer)
{
    printf("%s: refused %d at %" PRIu64 "\n", what, ZAN_REFUSAL(answer), ZAN_POSITION(answer));
    return 1;
}

static void print_line(const uint8_t *bytes, size_t len, const zan_report *report)
{
    static const char *const contents[] = {"", "message", "empty", "being written"};

    for (size_t i = 0; i < len; i++)
        printf("%02X ", bytes[i]);
    printf(" -> %s\n", contents[report->content]);
}

static void print_report(const zan_report *report)
{
    printf("message at %" PRIu64 ", length %" PRIu64 " of at most %" PRIu64 "\n", report->address,
           report->length, report->capacity);
}

static int type2(void)
{
    uint8_t image[64] = {0};
    uint8_t list[ZAN_TYPE2_LIST_MAX];
    uint8_t gathered[ZAN_TYPE2_GATHERED_MAX];
    static const uint8_t start[] = {0xE1, 0x10, 0x06, 0x00, 0x03, 0x00, 0xFE};
    zan_report report;
    uint64_t answer, count;

    for (size_t i = 0; i < sizeof start; i++)
        image[12 + i] = start[i];

    answer = zan_type2_write(image, sizeof image, message, sizeof message, list, sizeof list);
    if (ZAN_REFUSAL(answer))
        return refused("write", answer);
    count = ZAN_COUNT(answer);
    answer = zan_type2_judge(image, sizeof image, message, sizeof message, list,
                             count * ZAN_TYPE2_COMMAND);
    if (ZAN_REFUSAL(answer))
        return refused("judge", answer);

    printf("Type 2: %" PRIu64 " commands\n", count);
    for (uint64_t i = 0; i < count; i++) {
        const uint8_t *command = list + i * ZAN_TYPE2_COMMAND;

        answer = zan_type2_model(image, sizeof image, command, ZAN_TYPE2_COMMAND);
        if (ZAN_REFUSAL(answer))
            return refused("model", answer);
        answer = zan_type2_read(image, sizeof image, gathered, sizeof gathered, &report);
        if (ZAN_REFUSAL(answer))
            return refused("read", answer);
        print_line(command, ZAN_TYPE2_COMMAND, &report);
    }
    print_report(&report);
    return 0;
}

static int type3(void)
{
    uint8_t image[14 * 16] = {0x10, 4, 1, 0, 13, 0, 0, 0, 0, 0, 1, 0, 0, 0, 0, 0x23};
    uint8_t list[ZAN_TYPE3_LIST_MAX];
    static const uint8_t idm[8] = {0x01, 0x2E, 0x45, 0x76, 0xBA, 0x12, 0x34, 0x56};
    zan_report report;
    uint64_t answer, count;
    size_t at = 0;

    answer = zan_type3_write(image, sizeof image, message, sizeof message, idm, list,
                             sizeof list);
    if (ZAN_REFUSAL(answer))
        return refused("write", answer);
    count = ZAN_COUNT(answer);

    printf("Type 3: %" PRIu64 " commands\n", count);
    for (uint64_t i = 0; i < count; i++) {
        size_t len;

        answer = zan_type3_command_len(list + at, sizeof list - at);
        if (ZAN_REFUSAL(answer))
            return refused("length", answer);
        len = ZAN_COUNT(answer);
        answer = zan_type3_model(image, sizeof image, idm, list + at, len);
        if (ZAN_REFUSAL(answer))
            return refused("model", answer);
        answer = zan_type3_read(image, sizeof image, &report);
        if (ZAN_REFUSAL(answer))
            return refused("read", answer);
        print_line(list + at, len, &report);
        at += len;
    }
    print_report(&report);
    return 0;
}

static int type6(void)
{
    uint8_t image[16 * 4] = {0x4E, 0x44, 0x45, 0x10, 15, 3, 0x00, 14};
    uint8_t list[ZAN_TYPE6_LIST_MAX];
    size_t len = ZAN_TYPE6_COMMAND(image);
    zan_report report;
    uint64_t answer, count;

    answer = zan_type6_write(image, sizeof image, message, sizeof message, list, sizeof list);
    if (ZAN_REFUSAL(answer))
        return refused("write", answer);
    count = ZAN_COUNT(answer);

    printf("Type 6: %" PRIu64 " commands\n", count);
    for (uint64_t i = 0; i < count; i++) {
        const uint8_t *command = list + i * len;

        answer = zan_type6_model(image, sizeof image, command, len);
        if (ZAN_REFUSAL(answer))
            return refused("model", answer);
        answer = zan_type6_read(image, sizeof image, &report);
        if (ZAN_REFUSAL(answer))
            return refused("read", answer);
        print_line(command, len, &report);
    }
    print_report(&report);
    return 0;
}

int main(void)
{
    return type2() || type3() || type6();
}

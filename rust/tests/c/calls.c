/*
 * Calls every function that include/zanfirotta.h declares, on small tags and messages, and tests the
 * answers and what the buffers hold afterwards. Ends with status 0, or with the number of the first
 * line that does not hold.
 */
#include <string.h>

#include "zanfirotta.h"

#if ZAN_API_VERSION != 3
#error "calls.c is about version 3 of the interface"
#endif

#define HOLDS(fact)      \
    do {                 \
        if (!(fact))     \
            return __LINE__; \
    } while (0)

static const uint8_t message[3] = {0xD0, 0x00, 0x00};
static const uint8_t idm[8] = {1, 2, 3, 4, 5, 6, 7, 8};

/* An empty Type 2 tag of 64 bytes: the second specimen of docs/01-scope.md. */
static void empty2(uint8_t image[64])
{
    static const uint8_t start[] = {0xE1, 0x10, 0x06, 0x00, 0x03, 0x00, 0xFE};

    memset(image, 0, 64);
    memcpy(image + 12, start, sizeof start);
}

/* An empty Type 3 tag of three blocks, two blocks to a command. */
static void empty3(uint8_t image[48])
{
    static const uint8_t block[16] = {0x10, 4, 2, 0, 2, 0, 0, 0, 0, 0, 1, 0, 0, 0, 0, 0x19};

    memset(image, 0, 48);
    memcpy(image, block, 16);
}

static int type2(void)
{
    uint8_t image[64], list[ZAN_TYPE2_LIST_MAX], gathered[1] = {0xAA}, bytes[8], data[4] = {1, 2, 3, 4};
    uint64_t block = 9;
    zan_report report;
    int i;

    empty2(image);
    HOLDS(zan_type2_write(image, 64, message, 3, list, sizeof list) == 2 * 256);
    HOLDS(zan_type2_write(image, 64, message, 3, list, 11) == ZAN_REFUSED_SHORT_BUFFER);
    HOLDS(zan_type2_judge(image, 64, message, 3, list, 12) == 2 * 256);
    HOLDS(zan_type2_judge(image, 64, message, 3, list, 7) == ZAN_REFUSED_MALFORMED_COMMAND + 256);
    HOLDS(zan_type2_judge(image, 64, message, 3, list, 0) == ZAN_REFUSED_UNFINISHED);
    for (i = 0; i < 2; i++)
        HOLDS(zan_type2_model(image, 64, list + 6 * i, 6) == 0);
    HOLDS(zan_type2_model(image, 64, list, 5) == ZAN_REFUSED_MALFORMED_COMMAND);
    HOLDS(zan_type2_read(image, 64, gathered, sizeof gathered, &report) == 0);
    HOLDS(report.content == ZAN_CONTENT_MESSAGE && report.address == 18 && report.length == 3);
    HOLDS(report.interrupted == 0 && report.writable == 1 && report.capacity == 46 && gathered[0] == 0xAA);
    HOLDS(zan_type2_read(image, 63, gathered, sizeof gathered, &report) == ZAN_REFUSED_IMAGE_SIZE);
    HOLDS(report.length == 3);
    /* Written again, the tag is shut and opened. */
    HOLDS(zan_type2_write(image, 64, message, 3, list, 12) == 2 * 256);
    HOLDS(memcmp(list, "\xA2\x04\x03\x00\xD0\x00\xA2\x04\x03\x03\xD0\x00", 12) == 0);

    HOLDS(zan_type2_encode(5, data, 16, bytes, sizeof bytes) == 6 * 256);
    HOLDS(memcmp(bytes, "\xA2\x05\x01\x02\x03\x04", 6) == 0);
    HOLDS(zan_type2_encode(3, data, 16, bytes, sizeof bytes) == ZAN_REFUSED_MALFORMED_COMMAND);
    memset(data, 0, 4);
    HOLDS(zan_type2_decode(bytes, 6, 16, &block, data) == 0);
    HOLDS(block == 5 && memcmp(data, "\x01\x02\x03\x04", 4) == 0);
    HOLDS(zan_type2_decode(bytes, 7, 16, &block, data) == ZAN_REFUSED_MALFORMED_COMMAND && block == 5);
    return 0;
}

static int type3(void)
{
    uint8_t image[48], list[ZAN_TYPE3_LIST_MAX], bytes[ZAN_TYPE3_COMMAND_MAX], data[128] = {7};
    uint64_t count = 9, blocks[8] = {2, 1, 9};
    zan_report report;
    size_t at = 0;
    int i;

    empty3(image);
    HOLDS(zan_type3_write(image, 48, message, 3, idm, list, sizeof list) == 3 * 256);
    HOLDS(zan_type3_write(image, 48, message, 0, idm, list, sizeof list) == ZAN_REFUSED_EMPTY_MESSAGE);
    HOLDS(zan_type3_judge(image, 48, message, 3, idm, list, 93) == 3 * 256);
    HOLDS(zan_type3_judge(image, 48, message, 3, idm, list, 62) == ZAN_REFUSED_UNFINISHED + 2 * 256);
    for (i = 0; i < 3; i++) {
        HOLDS(zan_type3_command_len(list + at, 93 - at) == 31 * 256);
        HOLDS(zan_type3_model(image, 48, idm, list + at, 31) == 0);
        at += 31;
        HOLDS(zan_type3_read(image, 48, &report) == 0);
        HOLDS(report.content == (i < 2 ? ZAN_CONTENT_BEING_WRITTEN : ZAN_CONTENT_MESSAGE));
    }
    HOLDS(zan_type3_command_len(list + at, 0) == ZAN_REFUSED_MALFORMED_COMMAND);
    HOLDS(zan_type3_command_len(list, 30) == ZAN_REFUSED_MALFORMED_COMMAND);
    HOLDS(report.address == 16 && report.length == 3 && report.writable == 1 && report.capacity == 32);
    HOLDS(zan_type3_write(image, 48, message, 3, idm, list, 62) == 2 * 256);
    HOLDS(zan_type3_write(image, 48, message, 3, idm, list, 61) == ZAN_REFUSED_SHORT_BUFFER);

    HOLDS(zan_type3_encode(2, blocks, data, idm, 2, 2, bytes, sizeof bytes) == 49 * 256);
    HOLDS(memcmp(bytes + 12, "\x02\x80\x02\x80\x01\x07", 6) == 0);
    HOLDS(zan_type3_encode(3, blocks, data, idm, 2, 2, bytes, sizeof bytes) == ZAN_REFUSED_MALFORMED_COMMAND);
    blocks[0] = 0;
    HOLDS(zan_type3_decode(bytes, 49, idm, 2, 2, &count, blocks, data) == 0);
    HOLDS(count == 2 && blocks[0] == 2 && blocks[1] == 1 && blocks[2] == 9 && data[0] == 7);
    HOLDS(zan_type3_decode(bytes, 48, idm, 2, 2, &count, blocks, data) == ZAN_REFUSED_MALFORMED_COMMAND && count == 2);
    return 0;
}

/* A Type 6 tag of four blocks of four bytes that holds the message C0 C1 C2. */
static void old6(uint8_t image[16])
{
    static const uint8_t bytes[13] = {0x4E, 0x44, 0x45, 0x10, 3, 3, 0x00, 2, 3, 0, 0xC0, 0xC1, 0xC2};

    memset(image, 0, 16);
    memcpy(image, bytes, sizeof bytes);
}

static int type6(void)
{
    uint8_t image[16], list[ZAN_TYPE6_LIST_MAX], bytes[ZAN_TYPE6_COMMAND_MAX], data[ZAN_TYPE6_BLOCK_MAX] = {1, 2, 3, 4, 5};
    uint64_t block = 9;
    zan_report report = {0, 0, 0, 0, 0, 0};
    size_t len, i;

    old6(image);
    len = ZAN_TYPE6_COMMAND(image);
    HOLDS(len == 7 && ZAN_TYPE6_BLOCK_SIZE(image) == 4 && ZAN_TYPE6_BLOCKS(image) == 4);
    HOLDS(zan_type6_write(image, 16, message, 3, list, sizeof list) == 3 * 256);
    HOLDS(zan_type6_write(image, 16, message, 3, list, 20) == ZAN_REFUSED_SHORT_BUFFER);
    HOLDS(zan_type6_judge(image, 16, message, 3, list, 21) == 3 * 256);
    HOLDS(zan_type6_judge(image, 16, message, 3, list, 20) == ZAN_REFUSED_MALFORMED_COMMAND + 2 * 256);
    HOLDS(zan_type6_judge(image, 16, message, 3, list, 14) == ZAN_REFUSED_UNFINISHED + 2 * 256);
    for (i = 0; i < 3; i++) {
        HOLDS(zan_type6_model(image, 16, list + len * i, len) == 0);
        HOLDS(zan_type6_read(image, 16, &report) == 0);
        HOLDS(report.content == (i < 2 ? ZAN_CONTENT_EMPTY : ZAN_CONTENT_MESSAGE));
        /* A write that breaks off here goes on with what is left; a whole one, made again, takes two commands. */
        HOLDS(zan_type6_write(image, 16, message, 3, bytes, sizeof bytes) == 256 * (i == 1 ? 1u : 2u));
    }
    HOLDS(zan_type6_model(image, 16, list, 6) == ZAN_REFUSED_MALFORMED_COMMAND);
    HOLDS(report.address == 10 && report.length == 3 && report.interrupted == 0 && report.writable == 1);
    HOLDS(report.capacity == 6);
    HOLDS(zan_type6_read(image, 15, &report) == ZAN_REFUSED_BAD_DATA_AREA && report.length == 3);
    image[4] = 15;
    image[5] = 0;
    HOLDS(zan_type6_write(image, 16, message, 3, list, sizeof list) == ZAN_REFUSED_BAD_LENGTH);
    image[7] = 8;
    HOLDS(zan_type6_write(image, 16, message, 3, list, sizeof list) == ZAN_REFUSED_BLOCK_TOO_SMALL);
    HOLDS(zan_type6_judge(image, 16, message, 3, list, 0) == ZAN_REFUSED_BLOCK_TOO_SMALL);

    HOLDS(zan_type6_encode(5, data, 4, 16, bytes, sizeof bytes) == 7 * 256);
    HOLDS(memcmp(bytes, "\x02\x21\x05\x01\x02\x03\x04", 7) == 0);
    HOLDS(zan_type6_encode(5, data, 33, 16, bytes, sizeof bytes) == ZAN_REFUSED_MALFORMED_COMMAND);
    memset(data, 0xAA, sizeof data);
    HOLDS(zan_type6_decode(bytes, 7, 4, 16, &block, data) == 0);
    HOLDS(block == 5 && memcmp(data, "\x01\x02\x03\x04\xAA", 5) == 0);
    HOLDS(zan_type6_decode(bytes, 7, 4, 5, &block, data) == ZAN_REFUSED_MALFORMED_COMMAND && block == 5);
    return 0;
}

/* A text with an ID, and an empty record with four length bytes. */
static const uint8_t two[14] = {0x99, 1, 2, 1, 'T', 'a', 'h', 'i', 0x40, 0, 0, 0, 0, 0};

static int ndef(void)
{
    static const uint64_t second[ZAN_NDEF_RECORD] = {0, 14, 0, 14, 0, 14, 0};
    uint64_t records[ZAN_NDEF_TABLE];
    uint8_t bytes[16];

    records[2 * ZAN_NDEF_RECORD] = 9;
    HOLDS(zan_ndef_read(two, 14, records) == 2 * 256);
    HOLDS(records[ZAN_NDEF_TNF] == 1);
    HOLDS(records[ZAN_NDEF_TYPE_AT] == 4 && records[ZAN_NDEF_TYPE_LEN] == 1);
    HOLDS(records[ZAN_NDEF_ID_AT] == 5 && records[ZAN_NDEF_ID_LEN] == 1);
    HOLDS(records[ZAN_NDEF_PAYLOAD_AT] == 6 && records[ZAN_NDEF_PAYLOAD_LEN] == 2);
    HOLDS(memcmp(records + ZAN_NDEF_RECORD, second, sizeof second) == 0);
    HOLDS(records[2 * ZAN_NDEF_RECORD] == 9);
    HOLDS(zan_ndef_read(two, 13, records) == ZAN_REFUSED_MALFORMED_RECORD);
    HOLDS(zan_ndef_read(two, 0, records) == ZAN_REFUSED_MALFORMED_RECORD);
    HOLDS(zan_ndef_read((const uint8_t *)"\xB1", 1, records) == ZAN_REFUSED_CHUNKED_RECORD);
    HOLDS(records[ZAN_NDEF_TYPE_AT] == 4 && records[ZAN_NDEF_RECORD] == 0);

    /* The shortest form needs three bytes less. */
    memset(bytes, 0xAA, sizeof bytes);
    HOLDS(zan_ndef_write(records, 14, two, 14, bytes, 10) == ZAN_REFUSED_SHORT_BUFFER && bytes[0] == 0xAA);
    HOLDS(zan_ndef_write(records, 14, two, 14, bytes, sizeof bytes) == 11 * 256);
    HOLDS(memcmp(bytes, "\x99\x01\x02\x01Tahi\x50\x00\x00\xAA", 12) == 0);
    HOLDS(zan_ndef_write(records, 13, two, 14, bytes, sizeof bytes) == ZAN_REFUSED_UNWRITABLE_RECORDS);
    HOLDS(zan_ndef_write(records, 14, two, 13, bytes, sizeof bytes) == ZAN_REFUSED_UNWRITABLE_RECORDS);
    records[ZAN_NDEF_PAYLOAD_AT] = UINT64_MAX;
    HOLDS(zan_ndef_write(records, 14, two, 14, bytes, sizeof bytes) == ZAN_REFUSED_UNWRITABLE_RECORDS);
    return 0;
}

/* Sixteen empty records, and seventeen. */
static int many(void)
{
    static const uint64_t records[ZAN_NDEF_TABLE + ZAN_NDEF_RECORD] = {0};
    uint64_t table[ZAN_NDEF_TABLE];
    uint8_t bytes[3 * ZAN_NDEF_RECORDS_MAX + 1];

    HOLDS(zan_ndef_write(records, ZAN_NDEF_TABLE, two, 0, bytes, sizeof bytes) == 48 * 256);
    HOLDS(zan_ndef_read(bytes, 48, table) == ZAN_NDEF_RECORDS_MAX * 256);
    HOLDS(table[ZAN_NDEF_TABLE - 1] == 0 && table[ZAN_NDEF_TABLE - 2] == 48);
    bytes[45] = 0x10;
    bytes[48] = 0x50;
    HOLDS(zan_ndef_read(bytes, 49, table) == ZAN_REFUSED_TOO_MANY_RECORDS);
    HOLDS(zan_ndef_write(records, ZAN_NDEF_TABLE + ZAN_NDEF_RECORD, two, 0, bytes, sizeof bytes) == ZAN_REFUSED_UNWRITABLE_RECORDS);
    HOLDS(zan_ndef_write(records, 0, two, 0, bytes, sizeof bytes) == ZAN_REFUSED_UNWRITABLE_RECORDS);
    return 0;
}

/* A poster around a link, with a second link behind it; and five posters, one in the other. */
static int uri(void)
{
    uint8_t links[18] = {0x91, 2, 8, 'S', 'p', 0xD1, 1, 4, 'U', 4, 'a', '.', 'b', 0x51, 1, 1, 'U', 0x23};
    uint8_t posters[25] = {0xD1, 2, 20, 'S', 'p', 0xD1, 2, 15, 'S', 'p', 0xD1, 2, 10, 'S', 'p',
                           0xD1, 2, 5,  'S', 'p', 0xD1, 2, 0,  'S', 'p'};
    uint8_t bytes[12];
    uint64_t found = 9;

    memset(bytes, 0xAA, sizeof bytes);
    HOLDS(zan_uri_first(links, 18, bytes, 10, &found) == ZAN_REFUSED_SHORT_BUFFER && bytes[0] == 0xAA && found == 9);
    HOLDS(zan_uri_first(links, 18, bytes, sizeof bytes, &found) == 11 * 256 && found == 1);
    HOLDS(memcmp(bytes, "https://a.b\xAA", 12) == 0);
    HOLDS(zan_uri_first(message, 3, bytes, 0, &found) == 0 && found == 0);
    links[17] = 0x24;
    HOLDS(zan_uri_first(links, 18, bytes, 0, &found) == ZAN_REFUSED_BAD_URI);
    HOLDS(zan_uri_first(posters, 25, bytes, 0, &found) == ZAN_REFUSED_NESTED_TOO_DEEP);
    HOLDS(zan_uri_first(posters + 5, 20, bytes, 0, &found) == ZAN_REFUSED_MALFORMED_RECORD && found == 0);

    HOLDS(zan_uri_expand(links + 17, 1, bytes, 0) == ZAN_REFUSED_BAD_URI);
    HOLDS(zan_uri_expand(links + 9, 4, bytes, 10) == ZAN_REFUSED_SHORT_BUFFER);
    HOLDS(zan_uri_expand(links + 9, 4, bytes, 11) == 11 * 256);
    HOLDS(zan_uri_shorten(bytes, 11, posters, 3) == ZAN_REFUSED_SHORT_BUFFER && posters[0] == 0xD1);
    HOLDS(zan_uri_shorten(bytes, 11, posters, sizeof posters) == 4 * 256 && memcmp(posters, "\004a.bp", 5) == 0);
    return 0;
}

int main(void)
{
    int line = type2();

    line = line ? line : type3();
    line = line ? line : type6();
    line = line ? line : ndef();
    line = line ? line : many();
    return line ? line : uri();
}

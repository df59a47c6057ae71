/*
 * The C interface of Zanfirotta, which reads and writes NFC Type 2, Type 3 and Type 6 tag images so
 * that a write that breaks off leaves the old message, none, or the new one. It also reads and
 * writes the records of a message, and finds the first web address in it. The rules are in
 * docs/01-scope.md and docs/02-change-requests.md.
 *
 * No function allocates or keeps a pointer. Each returns a uint64_t:
 *
 *     ZAN_REFUSAL(answer)     0 on success, else the number of the refusal (enum zan_refusal)
 *     ZAN_COUNT(answer)       on success: the count that the function returns, or 0
 *     ZAN_POSITION(answer)    on refusals 20 to 23: the index of the command at fault in the list,
 *                             counted from 0 (for 23 the number of commands); else 0
 *
 * On a refusal, every buffer and every out parameter keeps its contents. On success, a buffer keeps
 * what it holds past what was written.
 *
 * An array is passed as a pointer and a length. No pointer may be null, not even where the length
 * is 0, and a buffer that is written to may not overlap another argument.
 *
 *     zan_report report;
 *     uint64_t answer = zan_type3_read(image, image_len, &report);
 *     if (ZAN_REFUSAL(answer))
 *         return ZAN_REFUSAL(answer);
 *     if (report.content == ZAN_CONTENT_MESSAGE)
 *         show(image + report.address, report.length);
 */
#ifndef ZANFIROTTA_H
#define ZANFIROTTA_H

#include <stddef.h>
#include <stdint.h>

#ifdef __cplusplus
extern "C" {
#endif

/* Rises whenever a struct or a signature below changes. */
#define ZAN_API_VERSION 3

/* Why a call was refused. */
enum zan_refusal {
    ZAN_OK = 0,
    ZAN_REFUSED_IMAGE_SIZE = 1,             /* Type 2: not a multiple of 4, under 64 or over 1,024
                                               bytes; Type 3: not a multiple of 16, under 16 or
                                               over 4,096; Type 6: under 8 or over 8,192 */
    ZAN_REFUSED_NOT_NDEF = 2,               /* Type 2: byte 12 is not E1h; Type 3: wrong checksum;
                                               Type 6: bytes 0 to 2 are not NDE */
    ZAN_REFUSED_UNKNOWN_VERSION = 3,        /* major version, the high nibble of the version byte,
                                               is not 1; Type 6: version byte is not 10h */
    ZAN_REFUSED_BAD_ACCESS = 4,             /* Type 2: byte 15 neither 00h nor 0Fh; Type 3:
                                               WriteFlag neither 00h nor 0Fh, RWFlag neither 00h
                                               nor 01h, or Nbr 0; Type 6: byte 6 neither 00h nor
                                               FFh */
    ZAN_REFUSED_BAD_DATA_AREA = 5,          /* data area reaches past the image; Type 6: image not
                                               of blocks * block size bytes, or MAX_LEN over the
                                               blocks after the container */
    ZAN_REFUSED_BAD_CONTROL_TLV = 6,        /* control TLV with a length other than 3 or a reserved
                                               nibble */
    ZAN_REFUSED_BAD_LENGTH = 7,             /* TLV runs past the data area or has a bad length form;
                                               Type 3: Ln over 16 * Nmaxb, whatever WriteFlag says;
                                               Type 6: MAX_LEN * block size under 2, or NLEN over
                                               that less 2 */
    ZAN_REFUSED_NO_MESSAGE_TLV = 8,         /* Type 2: no message TLV */
    ZAN_REFUSED_EMPTY_MESSAGE = 9,          /* message to write has length 0 */
    ZAN_REFUSED_NOT_WRITABLE = 10,          /* tag is not writable */
    ZAN_REFUSED_MESSAGE_TOO_LONG = 11,      /* message does not fit on the tag */
    ZAN_REFUSED_SHORT_BUFFER = 12,          /* buffer too short for the list, for the command, for
                                               the message of the records, for the address or for
                                               the payload */
    ZAN_REFUSED_SHORT_GATHERING_BUFFER = 13, /* gathering buffer too short for an interrupted
                                               message */
    ZAN_REFUSED_BLOCK_TOO_SMALL = 14,       /* Type 6, writing and judging: block size 1 */
    ZAN_REFUSED_MALFORMED_COMMAND = 20,     /* command is not well formed */
    ZAN_REFUSED_PROTECTED_BYTE = 21,        /* command changes a protected byte */
    ZAN_REFUSED_MISREAD = 22,               /* after the command the tag is refused, or reads
                                               neither as the old message, nor as holding none,
                                               nor as the new one */
    ZAN_REFUSED_UNFINISHED = 23,            /* list ends, and the tag does not read as the
                                               message */
    ZAN_REFUSED_TOO_MANY_RECORDS = 30,      /* bytes remain after sixteen records */
    ZAN_REFUSED_CHUNKED_RECORD = 31,        /* record with a chunk flag, or with TNF 6 */
    ZAN_REFUSED_MALFORMED_RECORD = 32,      /* record is cut short, or has TNF 7, TNF 5 with a type
                                               or TNF 0 with a length not 0; MB is not exactly on
                                               the first record, or ME not exactly on the one that
                                               ends the message; the message is empty */
    ZAN_REFUSED_UNWRITABLE_RECORDS = 33,    /* no message reads as these records */
    ZAN_REFUSED_BAD_URI = 34,               /* payload of a URI record is empty, or begins with a
                                               code over 23h */
    ZAN_REFUSED_NESTED_TOO_DEEP = 35        /* Smart Poster record inside four others */
};

/* What a tag holds. */
enum zan_content {
    ZAN_CONTENT_MESSAGE = 1,
    ZAN_CONTENT_EMPTY = 2,
    ZAN_CONTENT_BEING_WRITTEN = 3 /* Type 3 only: a write has begun and not ended */
};

/* What a tag that reads says of itself. */
typedef struct zan_report {
    uint64_t content;     /* enum zan_content */
    uint64_t address;     /* of the message's first byte in the image; 0 without a message */
    uint64_t length;      /* of the message in bytes; 0 without a message */
    uint64_t interrupted; /* 1 if skipped addresses lie inside the message, else 0 */
    uint64_t writable;    /* 1 if the tag may be written, else 0 */
    uint64_t capacity;    /* greatest length of a message that fits, whether writable or not */
} zan_report;

#define ZAN_REFUSAL(answer) ((int)((answer) % 256))
#define ZAN_COUNT(answer) ((answer) / 256)
#define ZAN_POSITION(answer) ((answer) / 256)

/* Buffers of these lengths are long enough for any tag. */
#define ZAN_TYPE2_COMMAND 6
#define ZAN_TYPE2_LIST_MAX (253 * ZAN_TYPE2_COMMAND)
#define ZAN_TYPE2_GATHERED_MAX 1024
#define ZAN_TYPE3_COMMAND_MAX (13 + 18 * 8)
#define ZAN_TYPE3_LIST_MAX (257 * (13 + 18))
#define ZAN_TYPE6_IMAGE_MAX 8192
#define ZAN_TYPE6_BLOCK_MAX 32
#define ZAN_TYPE6_COMMAND_MAX (3 + ZAN_TYPE6_BLOCK_MAX)
#define ZAN_TYPE6_LIST_MAX (256 * ZAN_TYPE6_COMMAND_MAX)

/*
 * What a Type 6 image of at least 8 bytes says of its tag: the block size, the number of blocks, and
 * so the length of a command.
 */
#define ZAN_TYPE6_BLOCK_SIZE(image) ((size_t)(image)[5] % 32 + 1)
#define ZAN_TYPE6_BLOCKS(image) ((size_t)(image)[4] + 1)
#define ZAN_TYPE6_COMMAND(image) (3 + ZAN_TYPE6_BLOCK_SIZE(image))

/*
 * A message has at most ZAN_NDEF_RECORDS_MAX records, and a record is ZAN_NDEF_RECORD numbers. A
 * table of ZAN_NDEF_TABLE numbers is long enough for any message.
 */
#define ZAN_NDEF_RECORDS_MAX 16
#define ZAN_NDEF_RECORD 7
#define ZAN_NDEF_TABLE (ZAN_NDEF_RECORDS_MAX * ZAN_NDEF_RECORD)

/* The length of the longest abbreviation of a URI record, for which a payload has one byte. */
#define ZAN_URI_PREFIX_MAX 26

/* The numbers of a record, in order: the TNF, then start and length of each part. */
enum zan_ndef_number {
    ZAN_NDEF_TNF = 0,
    ZAN_NDEF_TYPE_AT = 1,
    ZAN_NDEF_TYPE_LEN = 2,
    ZAN_NDEF_ID_AT = 3,
    ZAN_NDEF_ID_LEN = 4, /* 0 without an ID */
    ZAN_NDEF_PAYLOAD_AT = 5,
    ZAN_NDEF_PAYLOAD_LEN = 6
};

/*
 * Reads a Type 2 tag and fills in *report. An interrupted message is copied to the front of
 * gathered; any other is the part of the image that *report gives, and gathered is not touched.
 * Returns 0, or refusal 1 to 8 or 13.
 */
uint64_t zan_type2_read(const uint8_t *image, size_t image_len, uint8_t *gathered,
                        size_t gathered_len, zan_report *report);

/*
 * Fills list with the commands that write the message on a Type 2 tag, six bytes each. Leaves out
 * what the tag already holds: the first command if the first length byte is 00h, and each other
 * block that has its new bytes. The last command always stays. Returns the number of commands as
 * its count, or refusal 1 to 12.
 */
uint64_t zan_type2_write(const uint8_t *image, size_t image_len, const uint8_t *message,
                         size_t message_len, uint8_t *list, size_t list_len);

/*
 * Checks that a list, whoever made it, writes the message on a Type 2 tag safely. Returns the
 * number of commands as its count, or refusal 1 to 11 or 20 to 23.
 */
uint64_t zan_type2_judge(const uint8_t *image, size_t image_len, const uint8_t *message,
                         size_t message_len, const uint8_t *list, size_t list_len);

/*
 * Does to the image what a Type 2 tag does with one command: stores its bytes, protected or not.
 * Returns 0, or refusal 1 to 8 or 20.
 */
uint64_t zan_type2_model(uint8_t *image, size_t image_len, const uint8_t *command,
                         size_t command_len);

/*
 * Writes the command that stores data in a block to the front of bytes; blocks is the number of
 * blocks of the tag. Returns the number of bytes as its count, or refusal 12 or 20.
 */
uint64_t zan_type2_encode(uint64_t block, const uint8_t data[4], uint64_t blocks, uint8_t *bytes,
                          size_t bytes_len);

/*
 * Takes one command apart into *block and data; blocks is the number of blocks of the tag. Returns
 * 0, or refusal 20.
 */
uint64_t zan_type2_decode(const uint8_t *bytes, size_t bytes_len, uint64_t blocks,
                          uint64_t *block, uint8_t data[4]);

/*
 * Reads a Type 3 tag and fills in *report. The message is never interrupted. Returns 0, or refusal
 * 1 to 5 or 7.
 */
uint64_t zan_type3_read(const uint8_t *image, size_t image_len, zan_report *report);

/*
 * Fills list with the commands (Update) that write the message on a Type 3 tag; idm is the
 * manufacturer number (IDm) that they carry. Leaves out what the tag already holds: the first
 * command if WriteFlag is 0Fh, and each other block that has its new bytes, so the blocks of a
 * command need not be neighbours. The last command always stays. Returns the number of commands as
 * its count, or refusal 1 to 5, 7, or 9 to 12. Commands differ in length: see
 * zan_type3_command_len.
 */
uint64_t zan_type3_write(const uint8_t *image, size_t image_len, const uint8_t *message,
                         size_t message_len, const uint8_t idm[8], uint8_t *list,
                         size_t list_len);

/*
 * Returns the length in bytes of the first command of a Type 3 list as its count, or refusal 20 if
 * the list is empty or ends within that command. To step through a list, pass what is left of it.
 */
uint64_t zan_type3_command_len(const uint8_t *list, size_t list_len);

/*
 * Checks that a list, whoever made it, writes the message on a Type 3 tag safely. Returns the
 * number of commands as its count, or refusal 1 to 5, 7, 9 to 11, or 20 to 23.
 */
uint64_t zan_type3_judge(const uint8_t *image, size_t image_len, const uint8_t *message,
                         size_t message_len, const uint8_t idm[8], const uint8_t *list,
                         size_t list_len);

/*
 * Does to the image what a Type 3 tag does with one command: stores its blocks, protected or not.
 * Returns 0, or refusal 1 to 5, 7 or 20.
 */
uint64_t zan_type3_model(uint8_t *image, size_t image_len, const uint8_t idm[8],
                         const uint8_t *command, size_t command_len);

/*
 * Writes the command that stores count blocks to the front of bytes; only the first count entries
 * of blocks and 16 * count bytes of data are used. Returns the number of bytes as its count, or
 * refusal 12 or 20.
 */
uint64_t zan_type3_encode(uint64_t count, const uint64_t blocks[8], const uint8_t data[128],
                          const uint8_t idm[8], uint64_t nbw, uint64_t nmaxb, uint8_t *bytes,
                          size_t bytes_len);

/*
 * Takes one command apart into *count, the front of blocks and the front of data; the rest of both
 * keeps its contents. Returns 0, or refusal 20.
 */
uint64_t zan_type3_decode(const uint8_t *bytes, size_t bytes_len, const uint8_t idm[8],
                          uint64_t nbw, uint64_t nmaxb, uint64_t *count, uint64_t blocks[8],
                          uint8_t data[128]);

/*
 * Reads a Type 6 tag and fills in *report. The message is never interrupted, and the content is
 * never ZAN_CONTENT_BEING_WRITTEN. Returns 0, or refusal 1 to 5 or 7.
 */
uint64_t zan_type6_read(const uint8_t *image, size_t image_len, zan_report *report);

/*
 * Fills list with the commands (Write Single Block) that write the message on a Type 6 tag,
 * ZAN_TYPE6_COMMAND(image) bytes each. Leaves out what the tag already holds: the first command if
 * NLEN is zero, and each other block that has its new bytes. The last command always stays. Returns
 * the number of commands as its count, or refusal 1 to 5, 7, 9, 10, 14, 11 or 12; they are tested in
 * this order.
 */
uint64_t zan_type6_write(const uint8_t *image, size_t image_len, const uint8_t *message,
                         size_t message_len, uint8_t *list, size_t list_len);

/*
 * Checks that a list, whoever made it, writes the message on a Type 6 tag safely. Returns the
 * number of commands as its count, or refusal 1 to 5, 7, 9, 10, 14, 11, or 20 to 23; they are
 * tested in this order.
 */
uint64_t zan_type6_judge(const uint8_t *image, size_t image_len, const uint8_t *message,
                         size_t message_len, const uint8_t *list, size_t list_len);

/*
 * Does to the image what a Type 6 tag does with one command: stores its block, protected or not.
 * Returns 0, or refusal 1 to 5, 7 or 20.
 */
uint64_t zan_type6_model(uint8_t *image, size_t image_len, const uint8_t *command,
                         size_t command_len);

/*
 * Writes the command that stores data in a block to the front of bytes, for a tag of so many blocks
 * of block_size bytes; only the first block_size bytes of data are used. Returns the number of
 * bytes as its count, or refusal 12 or 20. A block size under 1 or over 32 is 20.
 */
uint64_t zan_type6_encode(uint64_t block, const uint8_t data[32], uint64_t block_size,
                          uint64_t blocks, uint8_t *bytes, size_t bytes_len);

/*
 * Takes one command apart into *block and the front of data, for a tag of so many blocks of
 * block_size bytes; the rest of data keeps its contents. Returns 0, or refusal 20.
 */
uint64_t zan_type6_decode(const uint8_t *bytes, size_t bytes_len, uint64_t block_size,
                          uint64_t blocks, uint64_t *block, uint8_t data[32]);

/*
 * Reads the records of a message and writes their numbers to the front of records, seven for each
 * (enum zan_ndef_number). The places are in message: the ID begins where the type ends, even if
 * there is none, and the payload where the ID ends. Returns the number of records as its count, or
 * refusal 30 to 32 for the first record at fault; they are tested in this order.
 *
 *     uint64_t records[ZAN_NDEF_TABLE];
 *     uint64_t answer = zan_ndef_read(message, message_len, records);
 *     if (ZAN_REFUSAL(answer))
 *         return ZAN_REFUSAL(answer);
 *     for (uint64_t i = 0; i < ZAN_COUNT(answer); i++) {
 *         const uint64_t *record = records + ZAN_NDEF_RECORD * i;
 *         show(message + record[ZAN_NDEF_PAYLOAD_AT], record[ZAN_NDEF_PAYLOAD_LEN]);
 *     }
 */
uint64_t zan_ndef_read(const uint8_t *message, size_t message_len,
                       uint64_t records[ZAN_NDEF_TABLE]);

/*
 * Writes the message of a list of records, in the shortest form, to the front of message. The list
 * is records_len numbers, seven for each record. The places are in bytes, in any order, and parts
 * may overlap. Any numbers may be passed: a part that does not lie in bytes, an empty one too, is
 * refused with 33. Returns the number of bytes as its count, or refusal 33 or 12; they are tested
 * in this order.
 */
uint64_t zan_ndef_write(const uint64_t *records, size_t records_len, const uint8_t *bytes,
                        size_t bytes_len, uint8_t *message, size_t message_len);

/*
 * Writes the address that the payload of a URI record stands for to the front of address: the
 * abbreviation of its first byte, a code from 00h to 23h, then the rest of the payload. An address
 * is bytes, with no 0 at its end, and need not be UTF-8. Returns the number of bytes as its count,
 * or refusal 34 or 12; they are tested in this order. An address has at most ZAN_URI_PREFIX_MAX - 1
 * bytes more than the payload.
 */
uint64_t zan_uri_expand(const uint8_t *payload, size_t payload_len, uint8_t *address,
                        size_t address_len);

/*
 * Writes the payload of the URI record for an address to the front of payload: the code of the
 * longest abbreviation that the address begins with, then the rest of the address. Upper and lower
 * case are different bytes. Returns the number of bytes as its count, at most address_len + 1, or
 * refusal 12.
 */
uint64_t zan_uri_shorten(const uint8_t *address, size_t address_len, uint8_t *payload,
                         size_t payload_len);

/*
 * Writes the first address of a message to the front of address. It looks at the URI records of
 * the message and, where a Smart Poster record stands, at those of the message in it. Any fault in
 * the message, in front of the first address or behind it, is refused. Sets *found to 1 and returns
 * the number of bytes as its count; without an address, sets *found to 0 and returns 0. Or it
 * returns refusal 30 to 32, 34 or 35, whichever it meets first, or else 12. A buffer of message_len
 * + ZAN_URI_PREFIX_MAX bytes is always long enough.
 */
uint64_t zan_uri_first(const uint8_t *message, size_t message_len, uint8_t *address,
                       size_t address_len, uint64_t *found);

#ifdef __cplusplus
}
#endif

#endif

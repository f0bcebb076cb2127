/* octseq.h: the proved calls of octseq, for C and C++.
 *
 * No call keeps a pointer, or has a state of its own: what it answers depends on its arguments alone, and calls may run
 * in any number of threads. No call requests memory but the two that read a record or a message from its text: they do
 * so by the program's malloc, realloc and free, and give back all of it before they return.
 *
 * What a caller promises. A pointer and the length after it name that many octets (or rows), which the call may read,
 * or write where the pointer isn't const, until it returns. The pointer may be NULL where the length is 0. What is
 * written overlaps no other argument, and nobody else writes to an argument meanwhile. What is only written may be
 * uninitialised. No length after a pointer is above PTRDIFF_MAX; of rows their octets count, which are the row's
 * `sizeof` times as many. Any other pointer (`written`, `count`, `state` and the like) is to one such
 * thing, and isn't NULL.
 * All other numbers, as offsets, types and the fields of a row, may be any. The program's malloc, realloc and free are
 * of one allocator and align a block as C asks of them. The two calls that use them aren't made by a signal handler,
 * nor by the forked child of a process with threads.
 *
 * What a call promises. For all octets: it returns, touches no other memory, and answers what its comment says. `out`
 * has what was written in its first `*written` octets (or rows) after OCTSEQ_OK, and all that follows them is as it
 * was. After any other status `out` is as it was, all of it (after OCTSEQ_UNSHOWN, which nothing leads to, it may have
 * changed). Every status has `*written` (or `*count`) set: to how much room it takes after OCTSEQ_NO_ROOM, so that a
 * call with no room, (NULL, 0), asks for the length alone; to 0 after a status above OCTSEQ_NO_ROOM. Each text that is
 * written is well-formed UTF-8. None has a NUL at its end.
 */
#ifndef OCTSEQ_H
#define OCTSEQ_H

#include <stddef.h>
#include <stdint.h>

#ifdef __cplusplus
extern "C" {
#endif

#define OCTSEQ_VERSION "0.1.0"

/* What calls answer. Each comment below says which of these a call has. */
#define OCTSEQ_OK 0u
#define OCTSEQ_NO_ROOM 1u   /* there is too little room; `*written` or `*count` says how much it takes */
#define OCTSEQ_MALFORMED 2u /* the octets aren't what they were read as */
#define OCTSEQ_FAULT 3u     /* the octets are not well-formed UTF-8 */
#define OCTSEQ_IMMOVABLE 4u /* data that isn't of its type's form may have pointers, so it can't be moved */
#define OCTSEQ_TOO_LONG 5u  /* a DNS message or data would have more than 65,535 octets, a text more than SIZE_MAX */
#define OCTSEQ_BAD_ROW 6u   /* a row's name isn't at its offset, its data isn't in the octets, or its section is none */
#define OCTSEQ_BAD_STATE 7u /* the octets of a state are more than three, or begin no character */
#define OCTSEQ_UNSHOWN 8u   /* no text could be made. No octets lead here, but no proof rules it out */
#define OCTSEQ_MEMORY 9u    /* a request for memory was refused */

/* ---- UTF-8 (the Unicode Standard, 3.9) ---- */

/* 1 where the octets are well-formed UTF-8, else 0. */
uint32_t octseq_is_utf8(const uint8_t *octets, size_t len);

/* Where the octets stop being well-formed UTF-8. OK: nowhere; `*valid_up_to` is `len`, `*error_len` 0. FAULT: the
 * first ill-formed part is at `*valid_up_to` and has `*error_len` octets, 1 to 3, or 0 where the octets end within a
 * character. */
uint32_t octseq_utf8_fault(const uint8_t *octets, size_t len, size_t *valid_up_to, size_t *error_len);

/* The octets as a text in which each maximal ill-formed part became one U+FFFD (EF BF BD). OK, NO_ROOM, TOO_LONG. */
uint32_t octseq_lossy(const uint8_t *octets, size_t len, uint8_t *out, size_t room, size_t *written);

/* The same for octets that come in pieces. The caller keeps the state: the `len` octets of a character that isn't whole
 * yet, at most three. All zeros is the state before the first piece. However the octets are cut, the texts of all
 * pieces, and the last one of octseq_lossy_end, are together the text of octseq_lossy. */
typedef struct octseq_lossy_state {
    uint8_t octets[3];
    uint8_t len;
} octseq_lossy_state;

/* The text of the next piece. OK, NO_ROOM, TOO_LONG, BAD_STATE. The state changes after OK alone: a piece is taken
 * then, also where its text has no octets, so that it fits any room. */
uint32_t octseq_lossy_piece(octseq_lossy_state *state, const uint8_t *piece, size_t len, uint8_t *out, size_t room,
                            size_t *written);

/* What is left once no piece follows: U+FFFD where the state has octets, else nothing. OK, NO_ROOM, BAD_STATE. After
 * OK the state is all zeros. */
uint32_t octseq_lossy_end(octseq_lossy_state *state, uint8_t *out, size_t room, size_t *written);

/* ---- DNS messages (RFC 1035) ---- */

/* The header of a message: its 12 octets as numbers. */
typedef struct octseq_dns_header {
    uint16_t id;
    uint16_t flags; /* the bits below, the opcode as OCTSEQ_DNS_OPCODE, the response code as OCTSEQ_DNS_RCODE */
    uint16_t qdcount;
    uint16_t ancount;
    uint16_t nscount;
    uint16_t arcount;
} octseq_dns_header;

#define OCTSEQ_DNS_QR 0x8000u
#define OCTSEQ_DNS_AA 0x0400u
#define OCTSEQ_DNS_TC 0x0200u
#define OCTSEQ_DNS_RD 0x0100u
#define OCTSEQ_DNS_RA 0x0080u
#define OCTSEQ_DNS_AD 0x0020u
#define OCTSEQ_DNS_CD 0x0010u
#define OCTSEQ_DNS_OPCODE(flags) (((flags) >> 11) & 15u)
#define OCTSEQ_DNS_RCODE(flags) ((flags) & 15u)

/* The one flag of an OPT record that has a meaning: records of DNSSEC are accepted (RFC 3225, 3). */
#define OCTSEQ_DNS_DO 0x8000u

/* A question or a record. Offsets are counted from the first octet of what it was read from. The four octets after
 * `section`, which align the next row, are no part of it. */
typedef struct octseq_dns_row {
    size_t name_at;   /* where the name begins */
    size_t data_at;   /* where the data begins; 0 of a question */
    size_t data_len;  /* how many octets of data there are; 0 of a question */
    uint32_t ttl;     /* for how many seconds it may be kept; 0 of a question */
    uint16_t rtype;   /* its type */
    uint16_t rclass;  /* its class */
    uint32_t section; /* 0 question, 1 answer, 2 record of an authority, 3 additional record */
} octseq_dns_row;

/* The header of the message that the octets are. OK, MALFORMED: they are no message; `*header` is as it was. */
uint32_t octseq_dns_message_header(const uint8_t *octets, size_t len, octseq_dns_header *header);

/* Whether the octets are a message, and where reading them stops. OK: they are one, and `*offset` is `len`. MALFORMED:
 * `*offset` is where the first part is that isn't there: 0 for the header, or a question or a record that it counts;
 * or, if all of these are there, the offset after the last; or 65,535 if there are more octets. */
uint32_t octseq_dns_message_fault(const uint8_t *octets, size_t len, size_t *offset);

/* The questions and the records of the message that the octets are, in their order. OK, NO_ROOM, MALFORMED. */
uint32_t octseq_dns_rows(const uint8_t *octets, size_t len, octseq_dns_row *out, size_t room, size_t *count);

/* The text of the message that the octets are, a line for its header and one for each of its entries. OK, NO_ROOM,
 * MALFORMED, UNSHOWN. */
uint32_t octseq_dns_message_text(const uint8_t *octets, size_t len, uint8_t *out, size_t room, size_t *written);

/* The message that the octets are, written anew, with its names compressed (RFC 1035, 4.1.4; RFC 3597, 4). OK, NO_ROOM,
 * MALFORMED, IMMOVABLE, TOO_LONG. */
uint32_t octseq_dns_rewrite(const uint8_t *octets, size_t len, uint8_t *out, size_t room, size_t *written);

/* A query: a message of one question. `name` is text, as octseq_dns_name_from_text takes it; `flags` as in a header.
 * OK, NO_ROOM, MALFORMED: the text is no name. A query has at most 271 octets. */
uint32_t octseq_dns_query(uint16_t id, uint16_t flags, const uint8_t *name, size_t name_len, uint16_t qtype,
                          uint16_t qclass, uint8_t *out, size_t room, size_t *written);

/* The same query with an OPT record, of EDNS version 0 (RFC 6891, 6.1). `payload` is the number of octets of the
 * largest UDP payload that the sender accepts, `edns_flags` the 16 flags of the record, and `options` its options as
 * they are in it, each with its code and its length in two octets. OK, NO_ROOM, MALFORMED: the text is no name, or the
 * options aren't whole; TOO_LONG. A query has at most 282 octets besides its options. */
uint32_t octseq_dns_query_edns(uint16_t id, uint16_t flags, const uint8_t *name, size_t name_len, uint16_t qtype,
                               uint16_t qclass, uint16_t payload, uint16_t edns_flags, const uint8_t *options,
                               size_t options_len, uint8_t *out, size_t room, size_t *written);

/* The answer to a message. It has the message's number, opcode, flag RD and questions, the flag QR, and of `flags` the
 * response code and all other flags. Its records are the rows, each in its section (1, 2 or 3), in the order that they
 * have here. Their names and data are at their offsets in `source`, and so are names in data. Names are compressed. OK,
 * NO_ROOM, MALFORMED: `query` is no message; BAD_ROW, IMMOVABLE, TOO_LONG. */
uint32_t octseq_dns_answer(const uint8_t *query, size_t query_len, uint16_t flags, const uint8_t *source,
                           size_t source_len, const octseq_dns_row *rows, size_t count, uint8_t *out, size_t room,
                           size_t *written);

/* The same answer within `limit` octets (RFC 2181, 9). If the records of all rows exceed them, it has those of the
 * rows that come before the first with which it would. The flag TC is set exactly if it lacks one; that of `flags` is
 * ignored. The rows are taken in the order that they have here, whatever their sections: so one that has to stay, as
 * an OPT record (RFC 6891, 7), comes first. The answer is composed once for each row that is taken, so it takes long
 * if there are thousands. OK, NO_ROOM, MALFORMED: `query` is no message; BAD_ROW, IMMOVABLE, TOO_LONG: its questions
 * alone exceed the limit, or there are more than 65,535 rows. */
uint32_t octseq_dns_answer_within(const uint8_t *query, size_t query_len, uint16_t flags, const uint8_t *source,
                                  size_t source_len, const octseq_dns_row *rows, size_t count, uint16_t limit,
                                  uint8_t *out, size_t room, size_t *written);

/* The octets of the record that a text is, one line without its end, as RFC 1035, 5.1 has it: `example.com. 300 IN MX
 * 10 mail.example.com.`. The TTL and the class come in either order, and each name ends with a full stop. The octets
 * are those of the owner, the type, the class, the TTL, the length of the data and the data, and no name has a
 * pointer. Memory is requested for data that ends in a list of types or of parameters. OK, NO_ROOM, MALFORMED:
 * `*offset` is the offset of the first word that isn't what has to come there, where the end of the text counts as a
 * word; TOO_LONG: the data has more than 65,535 octets; MEMORY. `*offset` is 0 but after MALFORMED. */
uint32_t octseq_dns_record_from_text(const uint8_t *text, size_t len, uint8_t *out, size_t room, size_t *written,
                                     size_t *offset);

/* The message that a text is, in the form that octseq_dns_message_text has, with its names compressed. Memory is
 * requested as for a record. OK, NO_ROOM, MALFORMED: `*line` is the number, from 1 on, of the line that has the first
 * word which isn't what has to come there, and `*offset` the offset of that word in the line; TOO_LONG, MEMORY. Both
 * are 0 but after MALFORMED. */
uint32_t octseq_dns_message_from_text(const uint8_t *text, size_t len, uint8_t *out, size_t room, size_t *written,
                                      size_t *line, size_t *offset);

/* ---- DNS names (RFC 1035, 3.1) ---- */

/* The text of the name at an offset of the octets, `example.com.`, with the escapes of RFC 1035, 5.1. OK, NO_ROOM,
 * MALFORMED: no name is there; UNSHOWN. A text has at most 1,004 octets. */
uint32_t octseq_dns_name_text(const uint8_t *octets, size_t len, size_t offset, uint8_t *out, size_t room,
                              size_t *written);

/* The wire form of the name at an offset of the octets, without pointers. OK, NO_ROOM, MALFORMED: no name is there. A
 * wire form has at most 255 octets. */
uint32_t octseq_dns_name_wire(const uint8_t *octets, size_t len, size_t offset, uint8_t *out, size_t room,
                              size_t *written);

/* The wire form of the name that a text spells. The text ends with a full stop. OK, NO_ROOM, MALFORMED: it spells no
 * name. */
uint32_t octseq_dns_name_from_text(const uint8_t *text, size_t len, uint8_t *out, size_t room, size_t *written);

/* How the name at one offset compares with that at another, in the canonical order (RFC 4034, 6.1): `*order` is -1, 0
 * or 1. Letters of either case are one. OK, MALFORMED: at one of the offsets no name is; `*order` is then 2. */
uint32_t octseq_dns_name_compare(const uint8_t *one, size_t one_len, size_t one_offset, const uint8_t *other,
                                 size_t other_len, size_t other_offset, int32_t *order);

/* ---- data of DNS records ---- */

/* 1 where the octets from `data_at` on, `data_len` of them, have the form of their type and class (30 types are known),
 * else 0. Names in them may have pointers into the octets where their type allows it. */
uint32_t octseq_dns_data_is_typed(const uint8_t *octets, size_t len, size_t data_at, size_t data_len, uint16_t rtype,
                                  uint16_t rclass);

/* The text of the same data: that of its type, or `\# n` and the octets in hexadecimal (RFC 3597, 5) where it has not
 * the form of a type that is known. OK, NO_ROOM, MALFORMED: the data isn't within the octets; UNSHOWN. */
uint32_t octseq_dns_data_text(const uint8_t *octets, size_t len, size_t data_at, size_t data_len, uint16_t rtype,
                              uint16_t rclass, uint8_t *out, size_t room, size_t *written);

/* The kinds of fields of data. */
#define OCTSEQ_DNS_NUMBER 0u    /* a number of one, two or four octets: a preference, a time, a record type */
#define OCTSEQ_DNS_NAME 1u      /* a domain name, at an offset as octseq_dns_name_text takes it */
#define OCTSEQ_DNS_ADDRESS 2u   /* an IPv4 address of 4 octets, or an IPv6 one of 16 */
#define OCTSEQ_DNS_STRING 3u    /* a character string, without the octet of its length */
#define OCTSEQ_DNS_OCTETS 4u    /* octets that are no other field: a key, a digest, a signature, unknown data */
#define OCTSEQ_DNS_TYPES 5u     /* a set of record types (RFC 4034, 4.1.2) */
#define OCTSEQ_DNS_PARAMETER 6u /* a parameter of SVCB or HTTPS (RFC 9460, 2.2) or an option of OPT (RFC 6891, 6.1.2) */

/* A field of data. Offsets are counted from the first of the octets. */
typedef struct octseq_dns_field {
    size_t at;       /* where its octets begin, after a length that it has before them; 0 of a number */
    size_t len;      /* how many octets there are; of a name those at its offset, of a number 0 */
    uint32_t number; /* the number, or the key of a parameter or the code of an option; else 0 */
    uint32_t kind;   /* OCTSEQ_DNS_NUMBER and so on */
} octseq_dns_field;

/* The fields of the same data, in the order that its type has them: of an MX a number and a name. All character strings
 * of a TXT, all parameters and all options are fields of their own. Data that has not the form of a type that is known
 * is one field of octets. OK, NO_ROOM, MALFORMED: the data isn't within the octets. */
uint32_t octseq_dns_data_fields(const uint8_t *octets, size_t len, size_t data_at, size_t data_len, uint16_t rtype,
                                uint16_t rclass, octseq_dns_field *out, size_t room, size_t *count);

/* The mnemonic of a type (`A`, `TYPE1234`) and of a class (`IN`, `CLASS5`). OK, NO_ROOM, UNSHOWN. */
uint32_t octseq_dns_rtype_text(uint16_t rtype, uint8_t *out, size_t room, size_t *written);
uint32_t octseq_dns_class_text(uint16_t rclass, uint8_t *out, size_t room, size_t *written);

/* The type, the class that a text names, in letters of either case. OK, MALFORMED: it names none; the number is then
 * 0. */
uint32_t octseq_dns_rtype_from_text(const uint8_t *text, size_t len, uint16_t *rtype);
uint32_t octseq_dns_class_from_text(const uint8_t *text, size_t len, uint16_t *rclass);

/* ---- BGP messages (RFC 4271) ---- */

/* How the messages of a session are read, as a sum of these. 0 is a session with AS numbers of four octets, without
 * path ids, whose messages have at most 4,096 octets. All other bits are ignored. */
#define OCTSEQ_BGP_TWO_OCTET_ASN 1u           /* AS numbers have two octets: RFC 4271, not RFC 6793 */
#define OCTSEQ_BGP_EXTENDED_MESSAGE 2u        /* messages may have 65,535 octets: RFC 8654 */
#define OCTSEQ_BGP_ADD_PATH_IPV4_UNICAST 4u   /* prefixes of this family have path ids: RFC 7911 */
#define OCTSEQ_BGP_ADD_PATH_IPV4_MULTICAST 8u
#define OCTSEQ_BGP_ADD_PATH_IPV6_UNICAST 16u
#define OCTSEQ_BGP_ADD_PATH_IPV6_MULTICAST 32u
#define OCTSEQ_BGP_ADD_PATH 60u               /* all four families */

/* The kinds of rows. */
#define OCTSEQ_BGP_WITHDRAWN 0u /* a prefix of the withdrawn routes */
#define OCTSEQ_BGP_ATTRIBUTE 1u /* a path attribute */
#define OCTSEQ_BGP_ANNOUNCED 2u /* a prefix after the attributes */
#define OCTSEQ_BGP_REACHED 3u   /* a prefix of MP_REACH_NLRI (RFC 4760, 3) */
#define OCTSEQ_BGP_UNREACHED 4u /* a prefix of MP_UNREACH_NLRI (RFC 4760, 4) */

/* A prefix or a path attribute of an UPDATE. Offsets are counted from the first octet of the message. */
typedef struct octseq_bgp_row {
    size_t at;            /* where the value of the attribute begins, or the octets of the prefix, after its length */
    size_t len;           /* how many octets there are; of a prefix (bits + 7) / 8 */
    uint32_t kind;        /* OCTSEQ_BGP_WITHDRAWN and so on */
    uint32_t path_id;     /* its path id, or 0 */
    uint16_t has_path_id; /* 1 of a prefix with a path id, else 0 */
    uint16_t afi;         /* 1 of an IPv4 prefix, 2 of an IPv6 one; 0 of an attribute */
    uint8_t safi;         /* 1 of a unicast prefix, 2 of a multicast one; 0 of an attribute */
    uint8_t bits;         /* the length of the prefix in bits; 0 of an attribute */
    uint8_t flags;        /* the flags of the attribute; 0 of a prefix */
    uint8_t type_code;    /* the type of the attribute; 0 of a prefix */
} octseq_bgp_row;

/* Whether the octets are a message of the session, and where reading them stops. OK: they are one, and `*offset` is
 * `len`. MALFORMED: `*offset` is 0 where the octets don't begin with the header of a message of this length; else where
 * the first part is that isn't there: 19 for what each message of its type begins with (and for what follows the header
 * of a KEEPALIVE), or the offset of a parameter of an OPEN, a length, a prefix or an attribute of an UPDATE. */
uint32_t octseq_bgp_message_fault(const uint8_t *octets, size_t len, uint32_t session, size_t *offset);

/* The parts of the message that the octets are, in their order: withdrawn prefixes, attributes, announced prefixes. The
 * prefixes of an MP_REACH_NLRI and of an MP_UNREACH_NLRI follow it, if its value has the form of its type and its
 * family is IPv4 or IPv6, unicast or multicast. A message that is no UPDATE has no rows. OK, NO_ROOM, MALFORMED: the
 * octets are no message of the session. */
uint32_t octseq_bgp_rows(const uint8_t *octets, size_t len, uint32_t session, octseq_bgp_row *out, size_t room,
                         size_t *count);

/* The text of the message that the octets are, a line for each of its parts. OK, NO_ROOM, MALFORMED: the octets are no
 * message of the session; UNSHOWN. */
uint32_t octseq_bgp_message_text(const uint8_t *octets, size_t len, uint32_t session, uint8_t *out, size_t room,
                                 size_t *written);

/* An AS number of an AS path. */
typedef struct octseq_bgp_hop {
    uint32_t asn;   /* the AS number */
    uint16_t kind;  /* the type of its segment: 1 set, 2 sequence, 3 sequence and 4 set of a confederation (RFC 5065) */
    uint16_t count; /* how many AS numbers the segment has: this one's row and those around it */
} octseq_bgp_hop;

/* The AS numbers of the AS path that the octets are, in their order: the octets of an AS_PATH of the session, or of an
 * AS4_PATH or an AS_PATH of a RIB for session 0. A path may have none. OK, NO_ROOM, MALFORMED: the octets are no AS
 * path of the session. */
uint32_t octseq_bgp_as_path(const uint8_t *octets, size_t len, uint32_t session, octseq_bgp_hop *out, size_t room,
                            size_t *count);

/* ---- records of MRT files (RFC 6396, RFC 8050) ---- */

/* The header of a record: its first 12 octets as numbers. */
typedef struct octseq_mrt_header {
    size_t len;         /* how many octets the record has, with its header */
    uint32_t timestamp; /* its time, in seconds since 1970 */
    uint16_t type_code; /* its type: 13 TABLE_DUMP_V2, 16 BGP4MP, 17 BGP4MP_ET, or another */
    uint16_t subtype;   /* its subtype */
} octseq_mrt_header;

/* The kinds of rows. */
#define OCTSEQ_MRT_OPAQUE 0u       /* octets without the form of their type and subtype */
#define OCTSEQ_MRT_TABLE 1u        /* a PEER_INDEX_TABLE */
#define OCTSEQ_MRT_PEER 2u         /* a peer of a table */
#define OCTSEQ_MRT_RIB 3u          /* a RIB: the routes to a prefix */
#define OCTSEQ_MRT_ENTRY 4u        /* an entry of a RIB: a route */
#define OCTSEQ_MRT_MESSAGE 5u      /* a BGP message */
#define OCTSEQ_MRT_STATE_CHANGE 6u /* a change of a session's state */

/* A part of a record. Offsets are counted from the first octet of the record. What a kind doesn't have is 0. */
typedef struct octseq_mrt_row {
    size_t at;              /* where the name of a table's view begins, the prefix of a RIB, a message, opaque octets */
    size_t len;             /* how many octets there are; of a prefix (bits + 7) / 8 */
    size_t count;           /* how many peers a table has, how many entries a RIB, how many attributes an entry */
    uint32_t kind;          /* OCTSEQ_MRT_TABLE and so on */
    uint32_t id;            /* a table's or peer's BGP identifier, a RIB's sequence number, an entry's path id */
    uint32_t time;          /* when an entry came, in seconds since 1970; microseconds of a message, a state change */
    uint32_t asn;           /* the AS number of a peer */
    uint32_t local_asn;     /* of a message, a state change: the AS number of the collector */
    uint32_t session;       /* how a message is read, as octseq_bgp_rows takes it */
    uint32_t old_state;     /* the state before a state change: 1 to 6 by RFC 4271, 8.2.2, or another number */
    uint32_t new_state;     /* the state after it */
    uint16_t index;         /* the number of an entry's peer in the table, from 0; of a message, .. : its interface */
    uint16_t afi;           /* 1 where a prefix or an address is IPv4, 2 where it is IPv6 */
    uint8_t safi;           /* 1 of a unicast RIB, 2 of a multicast one */
    uint8_t bits;           /* the length of a RIB's prefix in bits */
    uint8_t has_number;     /* 1 of an entry with a path id, and of a message, .. with microseconds, else 0 */
    uint8_t addr_len;       /* how many octets the address of a peer has: 4 or 16 */
    uint8_t addr[16];       /* the address of a peer; zeros follow it */
    uint8_t local_addr[16]; /* the address of the collector; zeros follow it */
} octseq_mrt_row;

/* The header at the front of octets. OK, MALFORMED: there are fewer than 12 octets; `*header` is as it was. After OK a
 * whole record is at the front exactly if `header->len` is at most `len`. So who reads a file takes 12 octets, then as
 * many more as the header says. A length may be up to 4,294,967,307. */
uint32_t octseq_mrt_record_header(const uint8_t *octets, size_t len, octseq_mrt_header *header);

/* The parts of the record that the octets are, all of them, in their order: a table and its peers, a RIB and its
 * entries, a message, a state change, or opaque octets. An entry may have a number that no peer has. A message may be
 * malformed. OK, NO_ROOM, MALFORMED: the octets aren't one record. */
uint32_t octseq_mrt_rows(const uint8_t *octets, size_t len, octseq_mrt_row *out, size_t room, size_t *count);

/* The path attributes of all entries of the RIB that the octets are, in their order, as rows of OCTSEQ_BGP_ATTRIBUTE.
 * The row of an entry says how many are its own. Their AS numbers have four octets. An MP_REACH_NLRI may have only next
 * hops, after their length (RFC 6396, 4.3.4). Other records have none. OK, NO_ROOM, MALFORMED: the octets aren't one
 * record. */
uint32_t octseq_mrt_attributes(const uint8_t *octets, size_t len, octseq_bgp_row *out, size_t room, size_t *count);

#ifdef __cplusplus
}
#endif

#endif

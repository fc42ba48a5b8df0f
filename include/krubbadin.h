/*
 * BGP FlowSpec rules (RFC 8955, RFC 8956), checked, read, written, matched, ranked and chosen by proved code: the surface of
 * libkrubbadin.a, which `rt lib --cpu x86-64` writes in crates/krubbadin. It needs nothing but memset and memcpy of the C library, takes no heap, keeps no state, and may be
 * called from many threads.
 *
 * A slice is a pointer and a length, the length in elements. The pointer may be NULL where the length is 0; else it points to so many
 * elements, aligned as their type asks. A slice that is written overlaps no other slice of the call. Nothing else is asked: any numbers
 * and any words are answered, and what is no rule or no packet is refused.
 *
 * Proved of each function, for all arguments: it returns; it reads and writes within the slices that it was lent; its answer and every
 * slice that it was lent to write are exactly what its definition says, and a refusal changes nothing.
 *
 * Compiles as C11 and as C++11.
 */
#ifndef KRUBBADIN_H
#define KRUBBADIN_H

#include <stddef.h>
#include <stdint.h>

#ifdef __cplusplus
extern "C" {
#endif

/*
 * What a call answers. Status 0: accepted, and `first` and `second` are what the call says. Any other status is the number of a
 * refusal, and `first` and `second` are what it carries, 0 where it carries less.
 *
 * `place` says where a reading was refused, by 1 to 6 or by 19: the place of the wrong octet, counted from 0 at the start of the input. That
 * is the type octet of 2 and 3, the prefix's length octet of 4, also where it is the offset that does not fit, and the operator octet of 5
 * and 6. An octet that is missing, 1, has the place just past the end that it is missing before: the input's end in the length and in the
 * plain reading, the stated end in a standard one, or the input's where that comes first. 19, where octets of a distinguisher are missing,
 * has the stated end. Any other answer has KRUBBADIN_NOWHERE.
 *
 * `place` joined the others later, and the struct is larger for it: an object that was compiled with a header without `place` must be
 * compiled again. Its source code compiles unchanged.
 */
struct krubbadin_answer {
    uint64_t status;
    uint64_t first;
    uint64_t second;
    uint64_t place;
};

/* The place of an answer that has none: all ones. */
#define KRUBBADIN_NOWHERE UINT64_MAX

/* The status numbers, with what each carries. */
enum krubbadin_status {
    KRUBBADIN_ACCEPTED = 0,
    KRUBBADIN_INSUFFICIENT_DATA = 1,       /* octets are missing before the end that bounds them; nothing */
    KRUBBADIN_INVALID_COMPONENT_ORDER = 2, /* a type is not above the one before it; first: that one (0 at first), second: the type found */
    KRUBBADIN_INVALID_COMPONENT_TYPE = 3,  /* no such component (in this family); first: the type */
    KRUBBADIN_INVALID_PREFIX = 4,          /* a prefix's length or offset is out of range; nothing */
    KRUBBADIN_INVALID_OPERATOR = 5,        /* plain only: a reserved bit is set; first: the operator octet */
    KRUBBADIN_INVALID_VALUE_LENGTH = 6,    /* standard krubbadin_read and krubbadin_check only: values of this width are too wide for the
                                              list's type, be the value there or not; first: the width code, 1 to 3 */
    KRUBBADIN_VALUE_TOO_LARGE = 7,         /* a body of more than 4,095 octets; first: its octets, a distinguisher's counted, the length's
                                              own not */
    KRUBBADIN_INPUT_TOO_LONG = 8,          /* plain only: more than 4,097 octets; first: how many */
    KRUBBADIN_NO_ROOM = 9,                 /* too little was lent; first: the operator places that the whole rule needs (1 where fewer than 64
                                              words were lent: one rule place), or the octets of the whole NLRI */
    KRUBBADIN_BAD_RECORD = 10,             /* what was lent is no rule, or none that the writing takes; nothing */
    KRUBBADIN_BAD_FAMILY = 11,             /* the family is not 4 or 6; first: the family */
    KRUBBADIN_TOO_MANY_RULES = 12,         /* more than 64 rules; first: how many */
    KRUBBADIN_BAD_PACKET = 13,             /* a field of the packet is out of range, or there are not 20 words; nothing */
    KRUBBADIN_MIXED_FAMILY = 14,           /* a rule of another family; first: the first such place */
    KRUBBADIN_SHORT_DISTINGUISHER = 19,    /* KRUBBADIN_WITH_DISTINGUISHER only: the stated length leaves fewer than eight octets; nothing */
    KRUBBADIN_MIXED_DISTINGUISHER = 20     /* a rule of another distinguisher, none counting as its own; first: the first such place */
};

/* A status in words. The text is a constant: it is not to be freed. */
static inline const char *krubbadin_status_text(uint64_t status)
{
    switch (status) {
    case KRUBBADIN_ACCEPTED:
        return "accepted";
    case KRUBBADIN_INSUFFICIENT_DATA:
        return "octets are missing";
    case KRUBBADIN_INVALID_COMPONENT_ORDER:
        return "a component's type is not above the one before it";
    case KRUBBADIN_INVALID_COMPONENT_TYPE:
        return "there is no component of this type, or none in this family";
    case KRUBBADIN_INVALID_PREFIX:
        return "a prefix's length or offset is out of range";
    case KRUBBADIN_INVALID_OPERATOR:
        return "a reserved bit is set in an operator octet";
    case KRUBBADIN_INVALID_VALUE_LENGTH:
        return "a value is too wide for its list's type";
    case KRUBBADIN_VALUE_TOO_LARGE:
        return "the rule's body has more than 4095 octets";
    case KRUBBADIN_INPUT_TOO_LONG:
        return "more than 4097 octets were given";
    case KRUBBADIN_NO_ROOM:
        return "too few places or octets were lent";
    case KRUBBADIN_BAD_RECORD:
        return "this is no rule, or none of its family";
    case KRUBBADIN_BAD_FAMILY:
        return "the family is neither 4 nor 6";
    case KRUBBADIN_TOO_MANY_RULES:
        return "more than 64 rules were given";
    case KRUBBADIN_BAD_PACKET:
        return "a field of the packet is out of range";
    case KRUBBADIN_MIXED_FAMILY:
        return "a rule is of another family";
    case KRUBBADIN_SHORT_DISTINGUISHER:
        return "the rule ends before the eight octets of its distinguisher";
    case KRUBBADIN_MIXED_DISTINGUISHER:
        return "a rule has another distinguisher";
    default:
        return "unknown status";
    }
}

/*
 * A rule stands in 64 words, its operators in two lists beside each other: the values, and the operator octets. Unequal lists count as
 * the shorter.
 *
 *    0 to 51   thirteen components of four words each; unused ones are 0
 *   52         how many components there are, at most 13
 *   53         the family: 0 as the plain reading leaves it, 4 or 6 as a standard one does; at most 255
 *   54         the place in the two lists where the rule's operators begin; a reading leaves 0
 *   55         whether the rule has a route distinguisher, 0 or 1
 *   56         the distinguisher's eight octets as a number, the first the highest; 0 where there is none
 *   57 to 63   0
 *
 * Rules of virtual networks, which BGP announces under subfamily 134, have a distinguisher (RFC 8955, 8). One of eight zero octets is there:
 * word 55 is 1 and word 56 is 0. It plays no part in matching or in rank.
 *
 * A prefix, types 1 (destination) and 2 (source):
 *   0   type + 16 x form; forms: 0 IPv4, 1 IPv6, 2 IPv4 with an offset, 3 IPv6 with an offset
 *   1   length + 256 x offset; the offset is 0 where the form has none
 *   2   the IPv4 address as a number, or the first 64 bits of the IPv6 address
 *   3   0, or the last 64 bits of the IPv6 address
 * The standard readings give IPv4 prefixes form 0 and IPv6 prefixes form 3; the plain reading gives forms 0 and 1.
 *
 * A list, types 3 (protocol), 4 (port), 5 (destination port), 6 (source port), 7 (ICMP type), 8 (ICMP code), 9 (TCP flags), 10 (packet
 * length), 11 (DSCP), 12 (fragment) and 13 (flow label); 9 and 12 have bitmask operators, the others numeric ones:
 *   0   type
 *   1   the place of its first operator, counted from the rule's first (word 54)
 *   2   how many operators it has
 *   3   0
 *
 * An operator octet: 0x80 the last of its list; 0x40 joined by AND, by the RFC to the previous operator; 0x30 the width of its value,
 * codes 0 to 3 for 1, 2, 4 and 8 octets; numeric: 0x04 less, 0x02 greater, 0x01 equal; bitmask: 0x02 NOT, 0x01 match. The rest is
 * reserved. By the standard, type 9 has values of 1 or 2 octets and types 11 and 12 of 1; by the plain reading and writing every list has
 * all four widths.
 */
#define KRUBBADIN_RULE_WORDS 64
#define KRUBBADIN_WORD_COUNT 52
#define KRUBBADIN_WORD_FAMILY 53
#define KRUBBADIN_WORD_FIRST 54
#define KRUBBADIN_WORD_DISTINGUISHED 55
#define KRUBBADIN_WORD_DISTINGUISHER 56

/* The most operators that an NLRI can have: with lists of so many places no reading is short of room. */
#define KRUBBADIN_MOST_OPERATORS 2047

/* The longest NLRI: with so many octets no writing is short of room. */
#define KRUBBADIN_MOST_OCTETS 4097

/*
 * A packet stands in 20 words. Where a field is absent its flag is 0, its other words are not looked at, and no component matches it.
 *
 *    0           family, 4 or 6
 *    1, 2        destination, its high and its low 64 bits; in family 4 a number of 32 bits
 *    3, 4        source, in the same way
 *    5           protocol, to 255
 *    6           length, to 65,575
 *    7           DSCP, to 63
 *    8           fragment bits, to 15: DF 1, IsF 2, FF 4, LF 8
 *    9, 10, 11   whether there are ports, 0 or 1; source port, destination port, to 65,535
 *   12, 13, 14   whether there are ICMP fields, 0 or 1; type, code, to 255
 *   15, 16       whether there are TCP flags, 0 or 1; the flags, to 4,095: octets 13 and 14 of the TCP header counted from 1, with the data
 *                offset taken as 0 (krubbadin_tcp_flags makes them)
 *   17, 18       whether there is a flow label, 0 or 1 and in family 4 always 0; the label, to 1,048,575
 *   19           0
 */
#define KRUBBADIN_PACKET_WORDS 20

/* The TCP flags of octets 13 and 14 of a TCP header, counted from 1. The data offset, the upper four bits of octet 13, is left out. */
static inline uint64_t krubbadin_tcp_flags(uint8_t octet_13, uint8_t octet_14)
{
    return ((octet_13 & 0x0Fu) << 8) | octet_14;
}

/*
 * What `standard` says to krubbadin_read, krubbadin_check and krubbadin_write. Any other number is as KRUBBADIN_STANDARD, and so is
 * KRUBBADIN_WITH_DISTINGUISHER to krubbadin_write: the rule says whether there is one to write.
 *
 * KRUBBADIN_WITH_DISTINGUISHER joined the others later. Before it 2 was as KRUBBADIN_STANDARD to the readings, too: a caller who passes 2 and
 * means that passes 1 now.
 */
enum krubbadin_mode {
    KRUBBADIN_PLAIN = 0,             /* bgpkit-parser's reading and writing, which look at no family and know no distinguisher */
    KRUBBADIN_STANDARD = 1,          /* those of the RFCs in `family`, 4 or 6; the reading expects no distinguisher */
    KRUBBADIN_WITH_DISTINGUISHER = 2 /* the reading of the RFCs that expects eight octets of distinguisher before the first component */
};

/*
 * Reads a rule from the front of `input` into the first 64 words, its operators into the two lists. With `standard` 0 it is the plain
 * reading (bgpkit-parser's), which looks at no family; with 2 the standard one in `family`, 4 or 6, of a rule with a distinguisher, which
 * the stated length counts; else the standard one of a rule without.
 *
 * Accepted: first is the octets used, second the number of operators. All 64 words are written; words after them and places past the last
 * operator stay. Refused by 8 (plain) or 11 (standard); by 1 in the length, or if the stated end lies past the input; by 19 if a
 * distinguisher is expected and the stated length is below eight (eight is a rule without components); then by 1 to 4 and 5 (plain) or 6
 * (standard) as the walk meets them; each of 1 to 6 and 19 with its place; then by 9.
 */
struct krubbadin_answer krubbadin_read(uint8_t standard, uint8_t family,
                                       const uint8_t *input, size_t input_len,
                                       uint64_t *words, size_t words_len,
                                       uint64_t *values, size_t values_len,
                                       uint8_t *octets, size_t octets_len);

/*
 * Checks a rule at the front of `input` and writes nothing: answers what krubbadin_read with the same `standard` and `family` and with room
 * for all would.
 *
 * Accepted: first is the octets used, the length's own included, second the number of operators, which is how many places krubbadin_read
 * needs in each list. Refused as krubbadin_read is, in the same order and with the same places, and never by 9.
 */
struct krubbadin_answer krubbadin_check(uint8_t standard, uint8_t family,
                                        const uint8_t *input, size_t input_len);

/*
 * Writes the rule in the first 64 words, its operators in the two lists, to the front of `out`. With `standard` 0 it is the plain
 * writing, which writes the components alone, else the standard one in `family`, which writes the distinguisher before them if there is one;
 * the family in the rule's words is not looked at.
 *
 * Accepted: first is the octets written. Later octets of `out` stay. Refused by 11 (standard), 10, 7, 9 in this order. The eight octets of a
 * distinguisher count in 7 and 9. A value that is too wide for its list's type is 10 to the standard writing, and so to the calls that
 * follow; words 55 and 56 that are no distinguisher's are 10 to either writing.
 */
struct krubbadin_answer krubbadin_write(uint8_t standard, uint8_t family,
                                        const uint64_t *words, size_t words_len,
                                        const uint64_t *values, size_t values_len,
                                        const uint8_t *octets, size_t octets_len,
                                        uint8_t *out, size_t out_len);

/*
 * Whether the rule in the first 64 words matches the packet.
 *
 * Accepted: first is 1 if it does, else 0. Refused by 13; by 10 if the standard writing in the rule's own family refuses it by 11, 10 or
 * 7; by 14, which carries 0, if its family is not the packet's.
 */
struct krubbadin_answer krubbadin_match(const uint64_t *words, size_t words_len,
                                        const uint64_t *values, size_t values_len,
                                        const uint8_t *octets, size_t octets_len,
                                        const uint64_t *packet, size_t packet_len);

/*
 * Which of two rules precedes (RFC 8955, 5.1; RFC 8956, 4), each with its own lists.
 *
 * Accepted: first is 1 if the first precedes, 2 if the second does, 0 if they are equal, which they are exactly if the standard writing
 * in their family, given room, writes the same octets for both: reserved bits and places in the lists play no part, the width of a value
 * does. Refused by 10 as in krubbadin_match, for either; by 14, which carries 1, if the second's family is not the first's; by 20, which
 * carries 1, if the second's distinguisher is not the first's, or if one of them alone has one.
 */
struct krubbadin_answer krubbadin_rank(const uint64_t *words, size_t words_len,
                                       const uint64_t *values, size_t values_len,
                                       const uint8_t *octets, size_t octets_len,
                                       const uint64_t *words2, size_t words2_len,
                                       const uint64_t *values2, size_t values2_len,
                                       const uint8_t *octets2, size_t octets2_len);

/*
 * Which rule decides for the packet: of those that match it, the one that precedes the others, of equal ones the first. There are
 * words_len / 64 rules; the operators of all of them stand in the one pair of lists, and word 54 of each says where its own begin.
 *
 * Accepted: first is 1 and second the deciding rule's place, counted from 0; first is 0 if no rule matches. Refused by 12; by 13; by 10
 * as in krubbadin_match for any rule, or if words are left over; by 14 with the place of the first rule whose family is not the packet's; by
 * 20 with the place of the first rule whose distinguisher is not that of the rule at place 0, or that alone of the two has one.
 */
struct krubbadin_answer krubbadin_choose(const uint64_t *words, size_t words_len,
                                         const uint64_t *values, size_t values_len,
                                         const uint8_t *octets, size_t octets_len,
                                         const uint64_t *packet, size_t packet_len);

/* An operator. On a refusal all but `status` and `carried` is 0. It comes from no input, so that its refusal has no place. */
struct krubbadin_operator {
    uint64_t status;        /* 0, or the number of the refusal */
    uint64_t carried;       /* what the refusal carries, else 0 */
    uint64_t end_of_list;   /* 1 the last of its list, else 0 */
    uint64_t and_with_next; /* 1 joined by AND, else 0; the name is the original's, the RFC joins to the previous */
    uint64_t value_length;  /* the octets of its value: 1, 2, 4 or 8 */
    uint64_t flags;         /* numeric: less 4, greater 2, equal 1; bitmask: NOT 2, match 1 */
    uint64_t value;
};

/* The operator that an octet and a value are: with `bitmask` 0 numeric, else bitmask. Refused by 5 with the octet if a reserved bit is set. */
struct krubbadin_operator krubbadin_operator_read(uint8_t bitmask, uint8_t octet, uint64_t value);

/*
 * The octet of an operator: with `bitmask` 0 numeric, else bitmask. Accepted: first is the octet. Refused by 10: a width other than 1, 2,
 * 4 or 8, an end_of_list or and_with_next above 1, flags above 7 (numeric) or 3 (bitmask).
 */
struct krubbadin_answer krubbadin_operator_write(uint8_t bitmask, uint8_t end_of_list, uint8_t and_with_next,
                                                 uint8_t value_length, uint8_t flags);

/* The operators that krubbadin_operator_make makes. */
enum krubbadin_constructor {
    KRUBBADIN_EQUAL_TO = 0,              /* equal */
    KRUBBADIN_GREATER_THAN_OR_EQUAL = 1, /* greater, equal */
    KRUBBADIN_EXACT_MATCH = 2,           /* match bit unset: by the RFC any bit of the mask will do */
    KRUBBADIN_PARTIAL_MATCH = 3          /* match bit set: by the RFC all bits of the mask are asked for */
};

/* The operator of a constructor, the last of its list, of the least width that holds the value. Another `which` is refused by 10. */
struct krubbadin_operator krubbadin_operator_make(uint8_t which, uint64_t value);

#ifdef __cplusplus
}
#endif

#endif

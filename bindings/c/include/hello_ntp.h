/*
 * NTP beside HELLO: the 48-octet header of RFC 5905, read and written, and what an association
 * makes of a packet. Calls of the proved library libhello.a.
 *
 * Every call ends with one of the numbers below, whatever it is given, and asks nothing
 * beforehand. A refusal's values are zero, and the association stays as it was.
 *
 *   no.  meaning
 *   0    done
 *   23   not 48 octets (extension fields and a MAC are refused)
 *   24   the version is not 4
 *   25   the packet mode is not 1 to 5, the association's number is over 6, or, in a header to
 *        be written, leap is over 3
 *   26   one of the four timestamp tests failed
 *
 * They are tested in that order. The library keeps nothing between calls, allocates nothing and
 * does no input or output. A pointer beside a length of 0 is not null either.
 */
#ifndef HELLO_NTP_H
#define HELLO_NTP_H

#include <stddef.h>
#include <stdint.h>

#ifdef __cplusplus
extern "C" {
#endif

/* The octets of a header. */
#define HELLO_NTP_OCTETS 48

/* The answers. */
#define HELLO_NTP_LENGTH 23
#define HELLO_NTP_VERSION 24
#define HELLO_NTP_MODE 25
#define HELLO_NTP_TIMESTAMP 26

/* The actions, with the numbers of the RFC's appendix A.5. */
#define HELLO_NTP_ERR (-1)
#define HELLO_NTP_DSCRD 0
#define HELLO_NTP_PROC 1
#define HELLO_NTP_FXMIT 3
#define HELLO_NTP_MANY 4
#define HELLO_NTP_NEWPS 5
#define HELLO_NTP_NEWBC 6

/* A header. A timestamp has seconds in its high 32 bits and a fraction of a second in its low. */
typedef struct hello_ntp_header {
    uint8_t leap;    /* 0 to 3 */
    uint8_t version; /* 4 */
    uint8_t mode;    /* 1 to 5 */
    uint8_t stratum;
    int8_t poll;              /* a power of two, in seconds */
    int8_t precision;         /* a power of two, in seconds */
    uint32_t root_delay;      /* rootdelay: 16 bits of seconds, 16 bits of fraction */
    uint32_t root_dispersion; /* rootdisp: the same */
    uint32_t reference_id;    /* refid */
    uint64_t reference;       /* reftime */
    uint64_t origin;          /* org, T1 */
    uint64_t receive;         /* rec, T2 */
    uint64_t transmit;        /* xmt, T3 */
} hello_ntp_header;

/* An association. */
typedef struct hello_ntp_association {
    uint8_t number;    /* its row of the dispatch table: 0 none, 1 to 6 */
    uint64_t transmit; /* the time that we last sent */
    uint64_t saved;    /* the transmit time that was last taken in */
} hello_ntp_association;

/* What reading a header returns. */
typedef struct hello_ntp_read_answer {
    uint8_t answer;
    hello_ntp_header header; /* all zero when refused */
} hello_ntp_read_answer;

/* What writing a header returns. */
typedef struct hello_ntp_written {
    uint8_t answer;
    uint8_t octets[HELLO_NTP_OCTETS]; /* all zero when refused */
} hello_ntp_written;

/* What receiving a packet returns. */
typedef struct hello_ntp_outcome {
    uint8_t answer;
    int8_t action;                     /* 0 when refused; the answer tells the two apart */
    int64_t offset;                    /* in units of 1/2^32 s; 0 unless the action is PROC */
    int64_t delay;                     /* the same */
    hello_ntp_association association; /* afterwards: `saved` is changed by PROC alone */
} hello_ntp_outcome;

/* The fields of a header of `length` octets: 23, 24, 25. */
hello_ntp_read_answer hello_ntp_read(const uint8_t *octets, size_t length);

/* The octets of a header: 24, 25. */
hello_ntp_written hello_ntp_write(hello_ntp_header header);

/* A packet of `length` octets that arrives at the time `destination`, T4: 23 to 26. */
hello_ntp_outcome hello_ntp_receive(hello_ntp_association association, const uint8_t *octets,
                                    size_t length, uint64_t destination);

#ifdef __cplusplus
}
#endif

#endif

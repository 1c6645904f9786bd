/* options.h: the options of turn_client.c. */
#ifndef OPTIONS_H
#define OPTIONS_H

#include "turn_client.h"

/* How turn_client ends. */
enum { ALL_BACK = 0, SOME_LOST = 1, BAD_USAGE = 2, FAILED = 3, NO_ANSWER = 4 };

enum { LEAST_SIZE = 4, MOST_SIZE = 60000, MOST_COUNT = 1000000 };

struct options {
    turn_address server, peer;      /* of no peer the family is 0 */
    const char *user, *password;    /* the password: of a file, of TURN_PASSWORD, or of the command line */
    uint32_t families, integrity;   /* as those of turn_settings */
    bool is_over_tcp, has_echo, has_no_channel, is_quiet;
    bool follows;                   /* goes on at the server that a response 300 names, once */
    bool ignores_short_lifetimes;   /* as turn_settings */
    turn_address accept;            /* whose connection is accepted, with port 0; family 0 if nobody's is */
    bool accepts_indications;       /* attempt_indications of turn_settings */
    uint32_t port, ports;           /* as turn_settings; how many options say which one */
    uint64_t token;                 /* for TURN_PORT_RESERVED */
    uint32_t count, size;           /* of payloads */
    uint32_t interval, seconds;     /* milliseconds between two of them; how long the address is kept */
};

/* Reads the options: an exit status where the program is to end, else -1. What is wrong, and help, is printed. */
int read_options(int argc, char **argv, struct options *options);

#endif

/* What a program has around the loop in the first comment of dcsctp.h. scripts/try-installed.sh
 * compiles the loop with this. */
#include <dcsctp.h>

#include <stdio.h>
#include <sys/socket.h>

uint64_t now(void);
void wait_until_readable(int fd, uint64_t deadline);
void use(uint16_t stream_id, uint32_t ppid, const uint8_t *bytes, size_t length);

static dcsctp_options options;
static dcsctp_event event;
static dcsctp_message message;
static uint8_t seed[32], packet[2000], buffer[300000];
static size_t length;
static uint64_t deadline;
static int32_t result;
static ssize_t n;
static int fd;

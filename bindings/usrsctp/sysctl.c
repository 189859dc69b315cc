/* The settings of usrsctp, which are defaults of sockets that are made later: see facade.c. */
#include "facade.h"

#include <stdatomic.h>

/* What has its effect, with the default. All but two defaults are usrsctp's: the window, and the
 * first congestion window, which has 10 packets. */
#define USED(X)                                                                                    \
    X(sctp_sendspace, 262144)                                                                      \
    X(sctp_recvspace, 131072)                                                                      \
    X(sctp_pr_enable, 1)                                                                           \
    X(sctp_max_burst_default, 4)                                                                   \
    X(sctp_delayed_sack_time_default, 200)                                                         \
    X(sctp_heartbeat_interval_default, 30000)                                                      \
    X(sctp_rto_max_default, 60000)                                                                 \
    X(sctp_rto_min_default, 1000)                                                                  \
    X(sctp_rto_initial_default, 3000)                                                              \
    X(sctp_valid_cookie_life_default, 60000)                                                       \
    X(sctp_init_rtx_max_default, 8)                                                                \
    X(sctp_assoc_rtx_max_default, 10)                                                              \
    X(sctp_nr_incoming_streams_default, 2048)                                                      \
    X(sctp_nr_outgoing_streams_default, 10)                                                        \
    X(sctp_initial_cwnd, 10)

/* What isn't there. Only 0 can be set; else the setter fails with ENOTSUP. */
#define ABSENT(X)                                                                                  \
    X(sctp_ecn_enable)                                                                             \
    X(sctp_auth_enable)                                                                            \
    X(sctp_asconf_enable)                                                                          \
    X(sctp_auto_asconf)                                                                            \
    X(sctp_multiple_asconfs)                                                                       \
    X(sctp_nrsack_enable)                                                                          \
    X(sctp_pktdrop_enable)                                                                         \
    X(sctp_cmt_on_off)                                                                             \
    X(sctp_cmt_use_dac)                                                                            \
    X(sctp_mobility_base)                                                                          \
    X(sctp_mobility_fasthandoff)                                                                   \
    X(sctp_nat_friendly)                                                                           \
    X(sctp_inits_include_nat_friendly)                                                             \
    X(sctp_udp_tunneling_port)                                                                     \
    X(sctp_use_dccc_ecn)                                                                           \
    X(sctp_buffer_splitting)                                                                       \
    X(sctp_shutdown_guard_time_default)                                                            \
    X(sctp_default_cc_module)                                                                      \
    X(sctp_default_ss_module)

/* What is kept and read back, and has no effect: sizes of tables and queues of usrsctp, what it
 * does at several paths, how it logs, and how it tunes what the library has rules of its own for.
 * No program can see the difference but by its figures. */
#define UNUSED(X)                                                                                  \
    X(sctp_no_csum_on_loopback, 0)                                                                 \
    X(sctp_peer_chunk_oh, 256)                                                                     \
    X(sctp_max_chunks_on_queue, 512)                                                               \
    X(sctp_min_split_point, 2904)                                                                  \
    X(sctp_sack_freq_default, 2)                                                                   \
    X(sctp_system_free_resc_limit, 1000)                                                           \
    X(sctp_asoc_free_resc_limit, 10)                                                               \
    X(sctp_pmtu_raise_time_default, 600)                                                           \
    X(sctp_secret_lifetime_default, 3600)                                                          \
    X(sctp_init_rto_max_default, 60000)                                                            \
    X(sctp_path_rtx_max_default, 5)                                                                \
    X(sctp_add_more_threshold, 1452)                                                               \
    X(sctp_use_cwnd_based_maxburst, 1)                                                             \
    X(sctp_L2_abc_variable, 2)                                                                     \
    X(sctp_mbuf_threshold_count, 5)                                                                \
    X(sctp_do_drain, 1)                                                                            \
    X(sctp_hb_maxburst, 4)                                                                         \
    X(sctp_abort_if_one_2_one_hits_limit, 0)                                                       \
    X(sctp_min_residual, 1452)                                                                     \
    X(sctp_max_retran_chunk, 30)                                                                   \
    X(sctp_logging_level, 0)                                                                       \
    X(sctp_default_frag_interleave, 1)                                                             \
    X(sctp_enable_sack_immediately, 1)                                                             \
    X(sctp_vtag_time_wait, 60)                                                                     \
    X(sctp_blackhole, 0)                                                                           \
    X(sctp_sendall_limit, 1432)                                                                    \
    X(sctp_diag_info_code, 0)                                                                      \
    X(sctp_fr_max_burst_default, 4)                                                                \
    X(sctp_path_pf_threshold, 65535)                                                               \
    X(sctp_rttvar_bw, 4)                                                                           \
    X(sctp_rttvar_rtt, 5)                                                                          \
    X(sctp_rttvar_eqret, 0)                                                                        \
    X(sctp_steady_step, 20)

/* A setting. usrsctp_FAMILY_set_NAME sets it, and usrsctp_sysctl_get_NAME returns it. */
#define DEFINE_SET_BY(family, name, value)                                                         \
    static _Atomic uint32_t name = value;                                                          \
    uint32_t usrsctp_sysctl_get_##name(void) {                                                     \
        return name;                                                                               \
    }                                                                                              \
    int usrsctp_##family##_set_##name(uint32_t number) {                                           \
        name = number;                                                                             \
        return 0;                                                                                  \
    }

#define DEFINE(name, value) DEFINE_SET_BY(sysctl, name, value)
#define DEFINE_TUNABLE(name, value) DEFINE_SET_BY(tunable, name, value)

#define DEFINE_ABSENT(name)                                                                        \
    int usrsctp_sysctl_set_##name(uint32_t number) {                                               \
        return number ? facade_fail(ENOTSUP) : 0;                                                  \
    }                                                                                              \
    uint32_t usrsctp_sysctl_get_##name(void) {                                                     \
        return 0;                                                                                  \
    }

USED(DEFINE)
ABSENT(DEFINE_ABSENT)
UNUSED(DEFINE)
DEFINE_TUNABLE(sctp_hashtblsize, 1024)
DEFINE_TUNABLE(sctp_pcbtblsize, 256)
DEFINE_TUNABLE(sctp_chunkscale, 10)

/* Resets of streams can't be turned off. */
int usrsctp_sysctl_set_sctp_reconfig_enable(uint32_t number) {
    return number ? 0 : facade_fail(ENOTSUP);
}

uint32_t usrsctp_sysctl_get_sctp_reconfig_enable(void) {
    return 1;
}

/* Debug texts aren't there. (The header declares these only with SCTP_DEBUG.) */
int usrsctp_sysctl_set_sctp_debug_on(uint32_t number);
uint32_t usrsctp_sysctl_get_sctp_debug_on(void);
DEFINE(sctp_debug_on, 0)

static uint16_t streams(uint32_t number) {
    return number > UINT16_MAX ? UINT16_MAX : (uint16_t)number;
}

/* How many packets are sent at once: for usrsctp 0 is no limit. */
int32_t facade_burst(uint32_t packets) {
    return packets && packets < INT32_MAX ? (int32_t)packets : INT32_MAX;
}

/* Sets up a new socket. usrsctp has no limit of the backoff but sctp_rto_max_default. */
void facade_use_settings(struct socket *s) {
    dcsctp_options *options = &s->options;
    dcsctp_options_init(options);
    options->rto_min = sctp_rto_min_default * (uint64_t)MILLISECOND;
    options->rto_max = sctp_rto_max_default * (uint64_t)MILLISECOND;
    options->rto_initial = sctp_rto_initial_default * (uint64_t)MILLISECOND;
    options->t1_init_timeout = options->rto_initial;
    options->t1_cookie_timeout = options->rto_initial;
    options->max_timer_backoff_duration = options->rto_max;
    options->cookie_lifetime = sctp_valid_cookie_life_default * (uint64_t)MILLISECOND;
    options->delayed_ack_max_timeout = sctp_delayed_sack_time_default * (uint64_t)MILLISECOND;
    options->heartbeat_interval = sctp_heartbeat_interval_default * (uint64_t)MILLISECOND;
    options->max_init_retransmits = sctp_init_rtx_max_default;
    options->max_retransmissions = sctp_assoc_rtx_max_default;
    options->max_burst = facade_burst(sctp_max_burst_default);
    options->cwnd_mtus_initial = sctp_initial_cwnd ? sctp_initial_cwnd : 1;
    options->enable_partial_reliability = sctp_pr_enable != 0;
    options->announced_maximum_incoming_streams = streams(sctp_nr_incoming_streams_default);
    options->announced_maximum_outgoing_streams = streams(sctp_nr_outgoing_streams_default);
    options->max_message_size = SIZE_MAX;
    options->max_send_buffer_size = UINT32_MAX; /* (SO_SNDBUF is the limit) */
    options->per_stream_send_queue_limit = UINT32_MAX;
    s->send_limit = sctp_sendspace;
    s->receive_limit = sctp_recvspace;
    if (options->max_receiver_window_buffer_size < s->receive_limit)
        options->max_receiver_window_buffer_size = s->receive_limit;
}

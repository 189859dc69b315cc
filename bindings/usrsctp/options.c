/* usrsctp_setsockopt and usrsctp_getsockopt: the table at the end has all options. See facade.c. */
#include "facade.h"

#include <stdlib.h>
#include <string.h>

/* RFC 8260; usrsctp has it in a header of its own. */
#define SCTP_INTERLEAVING_SUPPORTED 0x1206

/* The value of an option. */
union value {
    int number;
    struct linger linger;
    struct sctp_initmsg init;
    struct sctp_rtoinfo rto;
    struct sctp_assocparams association;
    struct sctp_paddrparams path;
    struct sctp_paddrinfo path_info;
    struct sctp_event event;
    struct sctp_assoc_value of_association;
    struct sctp_sack_info sack;
    struct sctp_sndinfo info;
    struct sctp_default_prinfo reliability;
    struct sctp_status status;
};

struct option {
    int level;
    int name;
    size_t size;
    int (*set)(struct socket *, const union value *); /* return an error, or 0 */
    int (*get)(struct socket *, union value *);
};

/* Where the library's options can't change any more. */
static int is_begun(const struct socket *s) {
    return s->phase >= CONNECTING;
}

/* Sets a number that goes into the library's options, unless 0 leaves it. */
static int set_time(const struct socket *s, uint64_t *option, uint32_t milliseconds) {
    const uint64_t time = milliseconds * (uint64_t)MILLISECOND;
    if (!milliseconds || *option == time)
        return 0;
    if (is_begun(s))
        return ENOTSUP;
    *option = time;
    return 0;
}

static int set_count(const struct socket *s, uint32_t *option, uint32_t count) {
    if (!count || *option == count)
        return 0;
    if (is_begun(s))
        return ENOTSUP;
    *option = count;
    return 0;
}

static int set_switch(const struct socket *s, uint32_t *option, uint32_t value) {
    if (value > 1)
        return EINVAL;
    if (*option != value && is_begun(s))
        return ENOTSUP;
    *option = value;
    return 0;
}

/* ---- Of sockets ----------------------------------------------------------------------------- */

static int set_linger(struct socket *s, const union value *value) {
    s->linger = value->linger;
    return 0;
}

static int get_linger(struct socket *s, union value *value) {
    value->linger = s->linger;
    return 0;
}

static int set_send_buffer(struct socket *s, const union value *value) {
    if (value->number <= 0)
        return EINVAL;
    s->send_limit = (size_t)value->number;
    return 0;
}

static int get_send_buffer(struct socket *s, union value *value) {
    value->number = (int)s->send_limit;
    return 0;
}

static int set_receive_buffer(struct socket *s, const union value *value) {
    if (value->number <= 0)
        return EINVAL;
    if (is_begun(s))
        return ENOTSUP;
    s->receive_limit = (size_t)value->number;
    if (s->options.max_receiver_window_buffer_size < s->receive_limit)
        s->options.max_receiver_window_buffer_size = s->receive_limit;
    return 0;
}

static int get_receive_buffer(struct socket *s, union value *value) {
    value->number = (int)s->receive_limit;
    return 0;
}

static int get_error(struct socket *s, union value *value) {
    value->number = s->error;
    s->error = 0;
    return 0;
}

/* ---- Of associations ------------------------------------------------------------------------ */

static int set_init(struct socket *s, const union value *value) {
    const struct sctp_initmsg *init = &value->init;
    if (is_begun(s))
        return ENOTSUP;
    if (init->sinit_num_ostreams)
        s->options.announced_maximum_outgoing_streams = init->sinit_num_ostreams;
    if (init->sinit_max_instreams)
        s->options.announced_maximum_incoming_streams = init->sinit_max_instreams;
    if (init->sinit_max_attempts)
        s->options.max_init_retransmits = init->sinit_max_attempts;
    return init->sinit_max_init_timeo ? ENOTSUP : 0;
}

static int get_init(struct socket *s, union value *value) {
    value->init.sinit_num_ostreams = s->options.announced_maximum_outgoing_streams;
    value->init.sinit_max_instreams = s->options.announced_maximum_incoming_streams;
    value->init.sinit_max_attempts = (uint16_t)s->options.max_init_retransmits;
    return 0;
}

static int set_rto(struct socket *s, const union value *value) {
    const struct sctp_rtoinfo *rto = &value->rto;
    int error = set_time(s, &s->options.rto_initial, rto->srto_initial);
    if (!error)
        error = set_time(s, &s->options.t1_init_timeout, rto->srto_initial);
    if (!error)
        error = set_time(s, &s->options.t1_cookie_timeout, rto->srto_initial);
    if (!error)
        error = set_time(s, &s->options.rto_min, rto->srto_min);
    if (!error)
        error = set_time(s, &s->options.max_timer_backoff_duration, rto->srto_max);
    return error ? error : set_time(s, &s->options.rto_max, rto->srto_max);
}

static int get_rto(struct socket *s, union value *value) {
    value->rto.srto_assoc_id = s->id;
    value->rto.srto_initial = (uint32_t)(s->options.rto_initial / MILLISECOND);
    value->rto.srto_max = (uint32_t)(s->options.rto_max / MILLISECOND);
    value->rto.srto_min = (uint32_t)(s->options.rto_min / MILLISECOND);
    return 0;
}

static int set_association(struct socket *s, const union value *value) {
    int error = set_count(s, &s->options.max_retransmissions, value->association.sasoc_asocmaxrxt);
    return error ? error
                 : set_time(s, &s->options.cookie_lifetime, value->association.sasoc_cookie_life);
}

static int get_association(struct socket *s, union value *value) {
    dcsctp_metrics metrics = {.size = sizeof metrics};
    value->association.sasoc_assoc_id = s->id;
    if (dcsctp_get_metrics(&s->it, &metrics) == 1)
        value->association.sasoc_peer_rwnd = metrics.peer_rwnd_bytes;
    value->association.sasoc_local_rwnd = (uint32_t)s->receive_limit;
    value->association.sasoc_cookie_life = (uint32_t)(s->options.cookie_lifetime / MILLISECOND);
    value->association.sasoc_asocmaxrxt = (uint16_t)s->options.max_retransmissions;
    value->association.sasoc_number_peer_destinations = 1;
    return 0;
}

/* The library's `mtu` may have these values (dcsctp_options). */
enum { LEAST_MTU = 32, GREATEST_MTU = 65535 };

/* spp_pathmtu is without the common header, and dcsctp's mtu has it. */
static int set_path(struct socket *s, const union value *value) {
    const struct sctp_paddrparams *path = &value->path;
    const size_t mtu = (size_t)path->spp_pathmtu + COMMON_HEADER;
    const uint64_t none = 0;
    if (path->spp_flags & (SPP_HB_DEMAND | SPP_IPV6_FLOWLABEL | SPP_DSCP))
        return ENOTSUP;
    if (path->spp_pathmtu && (mtu < LEAST_MTU || GREATEST_MTU < mtu))
        return EINVAL;
    if (path->spp_pathmtu && mtu < s->options.mtu && is_begun(s))
        return ENOTSUP;
    if (path->spp_flags & SPP_HB_DISABLE && s->options.heartbeat_interval != none && is_begun(s))
        return ENOTSUP;
    if (path->spp_pathmtu && !is_begun(s))
        s->options.mtu = mtu;
    if (path->spp_flags & SPP_HB_DISABLE)
        s->options.heartbeat_interval = none;
    else if (path->spp_flags & SPP_HB_ENABLE &&
             set_time(s, &s->options.heartbeat_interval, path->spp_hbinterval) != 0)
        return ENOTSUP;
    return set_count(s, &s->options.max_retransmissions, path->spp_pathmaxrxt);
}

static int get_path(struct socket *s, union value *value) {
    value->path.spp_assoc_id = s->id;
    value->path.spp_hbinterval = (uint32_t)(s->options.heartbeat_interval / MILLISECOND);
    value->path.spp_pathmtu = (uint32_t)s->options.mtu - COMMON_HEADER;
    value->path.spp_pathmaxrxt = (uint16_t)s->options.max_retransmissions;
    value->path.spp_flags = SPP_PMTUD_DISABLE;
    value->path.spp_flags |= s->options.heartbeat_interval ? SPP_HB_ENABLE : SPP_HB_DISABLE;
    return 0;
}

static int set_burst(struct socket *s, const union value *value) {
    if (is_begun(s))
        return ENOTSUP;
    s->options.max_burst = facade_burst(value->of_association.assoc_value);
    return 0;
}

static int get_burst(struct socket *s, union value *value) {
    value->of_association.assoc_value = (uint32_t)s->options.max_burst;
    return 0;
}

static int set_sack(struct socket *s, const union value *value) {
    if (value->sack.sack_freq && value->sack.sack_freq != 2)
        return ENOTSUP;
    return set_time(s, &s->options.delayed_ack_max_timeout, value->sack.sack_delay);
}

static int get_sack(struct socket *s, union value *value) {
    value->sack.sack_assoc_id = s->id;
    value->sack.sack_delay = (uint32_t)(s->options.delayed_ack_max_timeout / MILLISECOND);
    value->sack.sack_freq = 2;
    return 0;
}

static int set_reliability_supported(struct socket *s, const union value *value) {
    return set_switch(s, &s->options.enable_partial_reliability, value->of_association.assoc_value);
}

static int get_reliability_supported(struct socket *s, union value *value) {
    value->of_association.assoc_value = s->options.enable_partial_reliability;
    return 0;
}

static int set_interleaving(struct socket *s, const union value *value) {
    return set_switch(s, &s->options.enable_message_interleaving,
                      value->of_association.assoc_value);
}

static int get_interleaving(struct socket *s, union value *value) {
    value->of_association.assoc_value = s->options.enable_message_interleaving;
    return 0;
}

/* ---- Of messages ---------------------------------------------------------------------------- */

static int set_event(struct socket *s, const union value *value) {
    const struct sctp_event *event = &value->event;
    if (!event->se_type || event->se_type > SCTP_SEND_FAILED_EVENT)
        return EINVAL;
    s->events &= ~(1u << event->se_type);
    s->events |= (uint32_t)(event->se_on != 0) << event->se_type;
    if (event->se_type == SCTP_SENDER_DRY_EVENT)
        facade_notify_if_dry(s);
    return 0;
}

static int get_event(struct socket *s, union value *value) {
    if (value->event.se_type > SCTP_SEND_FAILED_EVENT)
        return EINVAL;
    value->event.se_on = (s->events >> value->event.se_type) & 1;
    return 0;
}

static int set_default_info(struct socket *s, const union value *value) {
    s->default_info = value->info;
    return 0;
}

static int get_default_info(struct socket *s, union value *value) {
    value->info = s->default_info;
    return 0;
}

static int set_default_reliability(struct socket *s, const union value *value) {
    if (PR_SCTP_INVALID_POLICY(value->reliability.pr_policy))
        return EINVAL;
    if (PR_SCTP_BUF_ENABLED(value->reliability.pr_policy))
        return ENOTSUP;
    s->default_reliability.pr_policy = value->reliability.pr_policy;
    s->default_reliability.pr_value = value->reliability.pr_value;
    return 0;
}

static int get_default_reliability(struct socket *s, union value *value) {
    value->reliability.pr_policy = s->default_reliability.pr_policy;
    value->reliability.pr_value = s->default_reliability.pr_value;
    value->reliability.pr_assoc_id = s->id;
    return 0;
}

static int set_explicit(struct socket *s, const union value *value) {
    s->is_explicit = value->number != 0;
    return 0;
}

static int get_explicit(struct socket *s, union value *value) {
    value->number = s->is_explicit;
    return 0;
}

static int set_info(struct socket *s, const union value *value) {
    s->wants_info = value->number != 0;
    return 0;
}

static int get_info(struct socket *s, union value *value) {
    value->number = s->wants_info;
    return 0;
}

/* ---- Status --------------------------------------------------------------------------------- */

static int32_t state_of(const struct socket *s) {
    switch (s->phase) {
    case CONNECTING:
        return SCTP_COOKIE_WAIT;
    case CONNECTED:
        return s->is_shutting_down ? SCTP_SHUTDOWN_PENDING : SCTP_ESTABLISHED;
    default:
        return SCTP_CLOSED;
    }
}

static int get_path_info(struct socket *s, union value *value) {
    struct sctp_paddrinfo *path = &value->path_info;
    const struct sockaddr_conn peer = facade_peer(s);
    dcsctp_metrics metrics = {.size = sizeof metrics};
    if (dcsctp_get_metrics(&s->it, &metrics) != 1)
        return ENOENT;
    memset(path, 0, sizeof *path);
    memcpy(&path->spinfo_address, &peer, sizeof peer);
    path->spinfo_assoc_id = s->id;
    path->spinfo_state = SCTP_ACTIVE;
    path->spinfo_cwnd = (uint32_t)metrics.cwnd_bytes;
    path->spinfo_srtt = (uint32_t)(metrics.srtt / MILLISECOND);
    path->spinfo_mtu = (uint32_t)s->options.mtu;
    return 0;
}

static int get_status(struct socket *s, union value *value) {
    struct sctp_status status = {0};
    union value path;
    dcsctp_metrics metrics = {.size = sizeof metrics};
    if (dcsctp_get_metrics(&s->it, &metrics) != 1 || get_path_info(s, &path) != 0)
        return EINVAL;
    status.sstat_assoc_id = s->id;
    status.sstat_state = state_of(s);
    status.sstat_rwnd = metrics.peer_rwnd_bytes;
    status.sstat_unackdata = (uint16_t)metrics.unack_data_count;
    status.sstat_instrms = metrics.negotiated_maximum_incoming_streams;
    status.sstat_outstrms = metrics.negotiated_maximum_outgoing_streams;
    status.sstat_fragmentation_point = (uint32_t)s->options.mtu - COMMON_HEADER - DATA_HEADER;
    status.sstat_primary = path.path_info;
    value->status = status;
    return 0;
}

/* ---- Streams -------------------------------------------------------------------------------- */

static int set_stream_reset(struct socket *s, const union value *value) {
    (void)s;
    if (value->of_association.assoc_value & ~(uint32_t)SCTP_ENABLE_VALUE_MASK)
        return EINVAL;
    return value->of_association.assoc_value & SCTP_ENABLE_RESET_STREAM_REQ ? 0 : ENOTSUP;
}

static int get_stream_reset(struct socket *s, union value *value) {
    (void)s;
    value->of_association.assoc_value = SCTP_ENABLE_RESET_STREAM_REQ;
    return 0;
}

/* Adds streams to those that wait for their reset. */
static int add_resets(struct socket *s, const uint8_t *list, size_t count) {
    uint16_t *streams;
    if (s->reset_count + count > MAX_RESETS)
        return ENOMEM;
    streams = realloc(s->resets, sizeof *streams * (s->reset_count + count));
    if (!streams)
        return ENOMEM;
    s->resets = streams;
    s->reset_since = 0;
    for (size_t i = 0; i < count; i++) {
        uint16_t stream_id;
        memcpy(&stream_id, list + 2 * i, sizeof stream_id);
        if (!facade_awaits_reset(s, stream_id))
            s->resets[s->reset_count++] = stream_id;
    }
    return 0;
}

/* Asks for a reset of outgoing streams. reports.c begins it, one request after another. */
static int reset_streams(struct socket *s, const void *bytes, size_t length) {
    struct sctp_reset_streams head;
    dcsctp_metrics metrics = {.size = sizeof metrics};
    const uint8_t *list = (const uint8_t *)bytes + sizeof head;
    if (length < sizeof head)
        return EINVAL;
    memcpy(&head, bytes, sizeof head);
    if (length < sizeof head + 2u * head.srs_number_streams)
        return EINVAL;
    if (s->phase != CONNECTED || dcsctp_get_metrics(&s->it, &metrics) != 1)
        return ENOENT;
    if (head.srs_flags != SCTP_STREAM_RESET_OUTGOING || !head.srs_number_streams)
        return head.srs_flags & ~3u || !head.srs_flags ? EINVAL : ENOTSUP;
    for (size_t i = 0; i < head.srs_number_streams; i++) {
        uint16_t stream_id;
        memcpy(&stream_id, list + 2 * i, sizeof stream_id);
        if (stream_id >= metrics.negotiated_maximum_outgoing_streams)
            return EINVAL;
    }
    return add_resets(s, list, head.srs_number_streams);
}

/* ---- What has one value --------------------------------------------------------------------- */

static int ignore(struct socket *s, const union value *value) {
    (void)s, (void)value;
    return 0;
}

static int must_be_off(struct socket *s, const union value *value) {
    (void)s;
    return value->number ? ENOTSUP : 0;
}

static int get_off(struct socket *s, union value *value) {
    (void)s;
    value->number = 0;
    return 0;
}

static int get_on(struct socket *s, union value *value) {
    (void)s;
    value->number = 1;
    return 0;
}

static int feature_must_be_off(struct socket *s, const union value *value) {
    (void)s;
    return value->of_association.assoc_value ? ENOTSUP : 0;
}

static int get_feature_off(struct socket *s, union value *value) {
    (void)s;
    value->of_association.assoc_value = 0;
    return 0;
}

static int feature_must_be_on(struct socket *s, const union value *value) {
    (void)s;
    return value->of_association.assoc_value ? 0 : ENOTSUP;
}

static int get_feature_on(struct socket *s, union value *value) {
    (void)s;
    value->of_association.assoc_value = 1;
    return 0;
}

static int must_take_turns(struct socket *s, const union value *value) {
    (void)s;
    return value->of_association.assoc_value > SCTP_SS_ROUND_ROBIN ? ENOTSUP : 0;
}

static int not_supported(struct socket *s, const union value *value) {
    (void)s, (void)value;
    return ENOTSUP;
}

#define NUMBER sizeof(int)
#define VALUE sizeof(struct sctp_assoc_value)

static const struct option OPTIONS[] = {
    {SOL_SOCKET, SO_LINGER, sizeof(struct linger), set_linger, get_linger},
    {SOL_SOCKET, SO_SNDBUF, NUMBER, set_send_buffer, get_send_buffer},
    {SOL_SOCKET, SO_RCVBUF, NUMBER, set_receive_buffer, get_receive_buffer},
    {SOL_SOCKET, SO_ERROR, NUMBER, NULL, get_error},
    {IPPROTO_SCTP, SCTP_INITMSG, sizeof(struct sctp_initmsg), set_init, get_init},
    {IPPROTO_SCTP, SCTP_RTOINFO, sizeof(struct sctp_rtoinfo), set_rto, get_rto},
    {IPPROTO_SCTP, SCTP_ASSOCINFO, sizeof(struct sctp_assocparams), set_association,
     get_association},
    {IPPROTO_SCTP, SCTP_PEER_ADDR_PARAMS, sizeof(struct sctp_paddrparams), set_path, get_path},
    {IPPROTO_SCTP, SCTP_MAX_BURST, VALUE, set_burst, get_burst},
    {IPPROTO_SCTP, SCTP_DELAYED_SACK, sizeof(struct sctp_sack_info), set_sack, get_sack},
    {IPPROTO_SCTP, SCTP_PR_SUPPORTED, VALUE, set_reliability_supported, get_reliability_supported},
    {IPPROTO_SCTP, SCTP_INTERLEAVING_SUPPORTED, VALUE, set_interleaving, get_interleaving},
    {IPPROTO_SCTP, SCTP_EVENT, sizeof(struct sctp_event), set_event, get_event},
    {IPPROTO_SCTP, SCTP_DEFAULT_SNDINFO, sizeof(struct sctp_sndinfo), set_default_info,
     get_default_info},
    {IPPROTO_SCTP, SCTP_DEFAULT_PRINFO, sizeof(struct sctp_default_prinfo), set_default_reliability,
     get_default_reliability},
    {IPPROTO_SCTP, SCTP_EXPLICIT_EOR, NUMBER, set_explicit, get_explicit},
    {IPPROTO_SCTP, SCTP_RECVRCVINFO, NUMBER, set_info, get_info},
    {IPPROTO_SCTP, SCTP_STATUS, sizeof(struct sctp_status), NULL, get_status},
    {IPPROTO_SCTP, SCTP_GET_PEER_ADDR_INFO, sizeof(struct sctp_paddrinfo), NULL, get_path_info},
    {IPPROTO_SCTP, SCTP_ENABLE_STREAM_RESET, VALUE, set_stream_reset, get_stream_reset},

    /* Messages are sent at once and delivered whole, and a port may be used for many addresses:
     * there is nothing that these could change. */
    {IPPROTO_SCTP, SCTP_NODELAY, NUMBER, ignore, get_on},
    {IPPROTO_SCTP, SCTP_REUSE_PORT, NUMBER, ignore, get_on},
    {IPPROTO_SCTP, SCTP_FRAGMENT_INTERLEAVE, NUMBER, ignore, get_on},
    {IPPROTO_SCTP, SCTP_PARTIAL_DELIVERY_POINT, NUMBER, ignore, NULL},

    /* What isn't there, and can't be turned on; or is, and can't be turned off. */
    {IPPROTO_SCTP, SCTP_AUTOCLOSE, NUMBER, must_be_off, get_off},
    {IPPROTO_SCTP, SCTP_DISABLE_FRAGMENTS, NUMBER, must_be_off, get_off},
    {IPPROTO_SCTP, SCTP_RECVNXTINFO, NUMBER, must_be_off, get_off},
    {IPPROTO_SCTP, SCTP_AUTO_ASCONF, NUMBER, must_be_off, get_off},
    {IPPROTO_SCTP, SCTP_MAXSEG, VALUE, feature_must_be_off, get_feature_off},
    {IPPROTO_SCTP, SCTP_MAX_CWND, VALUE, feature_must_be_off, get_feature_off},
    {IPPROTO_SCTP, SCTP_CONTEXT, VALUE, feature_must_be_off, get_feature_off},
    {IPPROTO_SCTP, SCTP_ECN_SUPPORTED, VALUE, feature_must_be_off, get_feature_off},
    {IPPROTO_SCTP, SCTP_AUTH_SUPPORTED, VALUE, feature_must_be_off, get_feature_off},
    {IPPROTO_SCTP, SCTP_ASCONF_SUPPORTED, VALUE, feature_must_be_off, get_feature_off},
    {IPPROTO_SCTP, SCTP_NRSACK_SUPPORTED, VALUE, feature_must_be_off, get_feature_off},
    {IPPROTO_SCTP, SCTP_PKTDROP_SUPPORTED, VALUE, feature_must_be_off, get_feature_off},
    {IPPROTO_SCTP, SCTP_RECONFIG_SUPPORTED, VALUE, feature_must_be_on, get_feature_on},
    {IPPROTO_SCTP, SCTP_PLUGGABLE_SS, VALUE, must_take_turns, get_feature_off},
    {IPPROTO_SCTP, SCTP_SS_VALUE, 0, not_supported, NULL},
    {IPPROTO_SCTP, SCTP_ADD_STREAMS, 0, not_supported, NULL},
    {IPPROTO_SCTP, SCTP_RESET_ASSOC, 0, not_supported, NULL},
    {IPPROTO_SCTP, SCTP_ADAPTATION_LAYER, 0, not_supported, NULL},
    {IPPROTO_SCTP, SCTP_PRIMARY_ADDR, 0, not_supported, NULL},
    {IPPROTO_SCTP, SCTP_REMOTE_UDP_ENCAPS_PORT, 0, not_supported, NULL},
};

static const struct option *find_option(int level, int name) {
    for (size_t i = 0; i < sizeof OPTIONS / sizeof *OPTIONS; i++)
        if (OPTIONS[i].level == level && OPTIONS[i].name == name)
            return &OPTIONS[i];
    return NULL;
}

static int set_option(struct socket *s, int level, int name, const void *bytes, size_t length) {
    const struct option *option = find_option(level, name);
    union value value;
    if (!option || !option->set)
        return level == SOL_SOCKET ? EINVAL : ENOPROTOOPT;
    if (length < option->size)
        return EINVAL;
    memset(&value, 0, sizeof value);
    memcpy(&value, bytes, option->size);
    return option->set(s, &value);
}

int usrsctp_setsockopt(struct socket *s, int level, int name, const void *bytes, socklen_t length) {
    int error;
    if (!s || !bytes)
        return facade_fail(s ? EFAULT : EBADF);
    facade_enter(s);
    if (level == IPPROTO_SCTP && name == SCTP_RESET_STREAMS)
        error = reset_streams(s, bytes, length);
    else
        error = set_option(s, level, name, bytes, length);
    facade_leave(s);
    return error ? facade_fail(error) : 0;
}

int usrsctp_getsockopt(struct socket *s, int level, int name, void *bytes, socklen_t *length) {
    const struct option *option = find_option(level, name);
    union value value;
    int error;
    if (!s || !bytes || !length)
        return facade_fail(s ? EFAULT : EBADF);
    if (!option || !option->get)
        return facade_fail(level == SOL_SOCKET ? EINVAL : ENOPROTOOPT);
    if (*length < option->size)
        return facade_fail(EINVAL);
    memset(&value, 0, sizeof value);
    memcpy(&value, bytes, option->size); /* (some options are asked by a field) */
    facade_enter(s);
    error = option->get(s, &value);
    facade_leave(s);
    if (error)
        return facade_fail(error);
    memcpy(bytes, &value, option->size);
    *length = (socklen_t)option->size;
    return 0;
}

int usrsctp_opt_info(struct socket *s, sctp_assoc_t id, int name, void *bytes, socklen_t *length) {
    (void)id; /* (the one association) */
    return usrsctp_getsockopt(s, IPPROTO_SCTP, name, bytes, length);
}

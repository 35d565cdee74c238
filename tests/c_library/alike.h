/*
 * A session and a stream that are handed the same, and whether they tell the same.
 */
#ifndef ALIKE_H
#define ALIKE_H

#include "rtnlc.h"

/* Whether what a session tells of its last dump is what a stream tells. A session is complete
 * where the stream is, and its table missed nothing. */
static inline bool is_status(const struct rtnlc_status *of_session,
                             const struct rtnlc_status *of_stream, uint64_t missed)
{
	return of_session->received == of_stream->received && of_session->visits == of_stream->visits &&
	       of_session->ignored == of_stream->ignored && of_session->seq == of_stream->seq &&
	       of_session->port == of_stream->port && of_session->status == of_stream->status &&
	       of_session->kind == of_stream->kind && of_session->family == of_stream->family &&
	       of_session->state == of_stream->state && of_session->damaged == of_stream->damaged &&
	       of_session->interrupted == of_stream->interrupted &&
	       of_session->complete == (of_stream->complete && missed == 0) &&
	       of_session->code == RTNLC_OK && of_stream->code == RTNLC_OK;
}

/* Whether a stream tells what stands in its fields. */
static inline bool is_told(const struct rtnlc_stream *stream, const struct rtnlc_status *told)
{
	bool is_done = stream->state == RTNLC_DONE && stream->status >= 0;
	return told->received == stream->received && told->visits == stream->visits &&
	       told->ignored == stream->ignored && told->seq == stream->seq &&
	       told->port == stream->port && told->status == stream->status &&
	       told->kind == stream->kind && told->family == stream->family &&
	       told->state == stream->state && told->damaged == (stream->damaged != 0) &&
	       told->interrupted == (stream->interrupted != 0) &&
	       told->complete == (is_done && !stream->damaged && !stream->interrupted);
}

/* Whether a session answers of a datagram what a stream does, but for the events. */
static inline bool is_fed(const struct rtnlc_fed *of_session, const struct rtnlc_fed *of_stream)
{
	return of_session->items == of_stream->items && of_session->ignored == of_stream->ignored &&
	       of_session->place == of_stream->place && of_session->ended == of_stream->ended &&
	       of_session->code == of_stream->code && of_session->events == 0;
}

#endif

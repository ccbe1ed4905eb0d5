/* Takes random steps with the library, and prints each code and all that the library writes. So two archives that print the same behave the
   same. The gate compares archives for two processors in this way.

       scenario STEPS REFUSED <messages

   The input has a line for each key and each message of a committee: `key` or `message`, and hex digits. Most of the STEPS steps are calls
   of the sessions of a store. The others restart it, renew a session, take a note, look, settle and so on. Then it takes 60 steps once for
   each of their allocations, with that allocation failing, at most REFUSED times. */
#include "nw.h"
#include "nw_alloc.h"
#include <stdio.h>
#include <stdlib.h>
#include <string.h>

enum { MEMBERS = 4, MESSAGES = 64, SESSIONS = 4, STORE = 150, SHORT = 60, ROOM = 4096 };

static nw_member members[MEMBERS] = {{{0}, 1}, {{0}, 1}, {{0}, 1}, {{0}, 1}};
static struct {
	uint8_t bytes[ROOM];
	size_t length;
	nw_checked checked;
	nw_message told;
} messages[MESSAGES];
static size_t member_count, message_count, made;

/* A store, the sessions that it made in the order of their numbers, and an answer for each. The last session is closed. */
static nw_committee committee;
static nw_store store;
static nw_session sessions[SESSIONS + 1];
static nw_answer answers[SESSIONS];

/* Allocations so far, the one that fails, and how many failed. */
static unsigned long allocations, refused, failures;
static uint64_t random_state;
static char nothing;

static nw_room room_at(void *at)
{
	return (nw_room){at != NULL, at ? at : &nothing};
}

static int fails(void)
{
	failures += ++allocations == refused;
	return allocations == refused;
}

nw_room nw_mem_alloc(size_t n, size_t align)
{
	return room_at(fails() ? NULL : malloc(n ? n : align));
}

nw_room nw_mem_realloc(void *at, size_t kept, size_t n, size_t align)
{
	(void)kept;
	return room_at(fails() ? NULL : realloc(at, n ? n : align));
}

void nw_mem_dealloc(void *at)
{
	free(at);
}

/* A random number below `below`: the multiplier and the increment are Knuth's for MMIX. */
static unsigned long draw(unsigned long below)
{
	random_state = random_state * 6364136223846793005u + 1442695040888963407u;
	return (unsigned long)(random_state >> 33) % below;
}

static void print_bytes(const char *what, const void *bytes, size_t length)
{
	printf(" %s ", what);
	for (size_t i = 0; i < length; i++)
		printf("%02x", ((const uint8_t *)bytes)[i]);
}

static void print_block(nw_block *block)
{
	nw_subject subject;
	uint8_t buffer[ROOM];
	uint32_t lengths[32];
	size_t parents = 0, transactions = 0, needed = 0;
	if (nw_block_subject(block, &subject) == NW_DONE) {
		print_bytes("block", subject.digest.bytes, 32);
		printf(" %llu.%u", (unsigned long long)subject.round, (unsigned)subject.author);
	}
	if (nw_block_counts(block, &parents, &transactions) == NW_DONE)
		printf(" has %zu %zu", parents, transactions);
	int32_t code = nw_block_body(block, buffer, ROOM, &needed);
	printf(" body %d %zu", (int)code, needed);
	print_bytes("of", buffer, code == NW_DONE ? needed : 0);
	if (nw_block_transactions(block, buffer, ROOM, lengths, 32, &needed) == NW_DONE)
		print_bytes("with", buffer, needed);
}

static void print_reply(nw_answer *answer)
{
	nw_tagged reply;
	nw_event event;
	nw_status status;
	nw_subject missing;
	nw_block block = {0};
	size_t events = 0;
	if (nw_answer_events(answer, &events) == NW_DONE)
		printf(" events %zu", events);
	if (events > 0 && nw_answer_event(answer, draw((unsigned long)events), &event) == NW_DONE)
		printf(" event %u %u %d %d", (unsigned)event.session, (unsigned)event.number, (int)event.call.kind, (int)event.reply.kind);
	if (nw_answer_reply(answer, &reply) != NW_DONE)
		return;
	printf(" reply %d %llu", (int)reply.kind, (unsigned long long)reply.number);
	print_bytes("", reply.digest.bytes, 32);
	if (nw_answer_status(answer, &status) == NW_DONE)
		print_bytes("status", &status, sizeof status);
	for (size_t i = 0; nw_answer_missing(answer, i, &missing) == NW_DONE; i++)
		printf(" misses %llu.%u", (unsigned long long)missing.round, (unsigned)missing.author);
	if (nw_answer_block(answer, &block) == NW_DONE)
		print_block(&block);
	nw_block_free(&block);
}

static void print_walk(nw_answer *ticket)
{
	nw_list list = {0};
	nw_block block = {0};
	size_t length = 0;
	printf(" walk %d", (int)nw_ticket_walk(ticket, &list));
	if (nw_list_len(&list, &length) == NW_DONE && length && nw_list_block(&list, draw((unsigned long)length), &block) == NW_DONE)
		print_block(&block);
	printf(" %zu", length);
	nw_block_free(&block);
	nw_list_free(&list);
}

/* Looks at a slot, or at all slots of a round. */
static int32_t look(nw_session *session)
{
	nw_author_look looks[MEMBERS] = {{.author = (uint16_t)draw(MEMBERS)}};
	size_t count = 1;
	uint64_t round = draw(4);
	int32_t code = draw(2) ? nw_session_look(session, round, looks->author, &looks->look)
			       : nw_session_look_round(session, round, looks, draw(MEMBERS + 1), &count);
	printf(" %zu", count);
	for (size_t i = 0; code == NW_DONE && i < count; i++) {
		nw_look *at = &looks[i].look;
		printf(" %u %llu %llu %zu %d%d", (unsigned)looks[i].author, (unsigned long long)at->garbage_round,
		       (unsigned long long)at->newest_round, at->missing, at->stands, at->complete);
		print_bytes("first", at->first.bytes, at->has_first ? 32 : 0);
		print_bytes("certified", at->certified.bytes, at->has_certified ? 32 : 0);
	}
	return code;
}

/* Settles all sessions, or all but the first, and takes them back. */
static int32_t settle(nw_answer *answer)
{
	nw_settlement settlement = {0};
	printf(" %d", (int)nw_settlement_new(&settlement));
	for (size_t i = draw(3) == 0; i < made; i++)
		printf(" %d", (int)nw_settlement_give(&settlement, &sessions[i]));
	int32_t code = nw_settle(&settlement, answer);
	for (size_t i = made; i-- > 0;)
		while (nw_settlement_take(&settlement, &sessions[i]) == NW_NO_MEMORY)
			printf(" again");
	nw_settlement_free(&settlement);
	return code;
}

/* What is no call of the session. */
static int32_t act(unsigned long kind, nw_session *session, nw_answer *answer, nw_answer *other, bool *yes)
{
	switch (kind) {
	case 0: return nw_session_restart(session, answer);
	case 1: return nw_session_renew(session);
	case 2: return nw_session_note(session, answer);
	case 3: return nw_session_hear(session, other);
	case 4: return nw_answer_is_prefix(other, answer, yes);
	case 5: return nw_store_compact(&store);
	case 6: return look(session);
	case 7: return settle(answer);
	default: return nw_store_session(&store, &sessions[made]);
	}
}

static int32_t call(unsigned long kind, nw_session *session, nw_answer *answer)
{
	size_t at = draw((unsigned long)message_count);
	const nw_digest *digest = &messages[at].told.subject.digest;
	switch (kind) {
	case 0: return nw_session_certificate(session, digest, answer);
	case 1: return nw_session_read(session, digest, answer);
	case 2: return nw_session_missing_of(session, digest, answer);
	case 3: return nw_session_missing(session, (uint16_t)draw(5), answer);
	case 4: return nw_session_collect(session, draw(8) ? 0 : draw(3), answer);
	case 5: return nw_session_status(session, answer);
	case 6: case 7: return nw_session_open(session, digest, answer);
	default: return nw_session_hand_in(session, &messages[at].checked, answer);
	}
}

/* A step of a session, and what it has then. One of `calls` steps is no call. */
static void step(unsigned long calls)
{
	size_t who = draw(made ? (unsigned long)made : 1), other = (who + 1 + draw(SESSIONS - 1)) % SESSIONS;
	unsigned long is_call = draw(calls), kind = draw(is_call ? 21 : 9);
	uint16_t id = 0;
	uint64_t run = 0;
	bool yes = false;
	printf("%s %lu", is_call ? "call" : "act", kind);
	int32_t code = is_call ? call(kind, &sessions[who], &answers[who]) : act(kind, &sessions[who], &answers[who], &answers[other], &yes);
	made += !is_call && kind == 8 && code == NW_DONE;
	printf(" %d %d", (int)code, yes);
	if (code == NW_ENDED && draw(2))
		printf(" renew %d", (int)nw_session_renew(&sessions[who]));
	printf(" of %d %d", (int)nw_session_id(&sessions[who], &id), (int)nw_session_run(&sessions[who], &run));
	printf(" %u %llu", (unsigned)id, (unsigned long long)run);
	print_reply(&answers[who]);
	print_walk(&answers[who]);
	printf("\n");
}

/* This many steps of a store, which begins with all its sessions but one. */
static void play_store(unsigned long steps, unsigned long calls)
{
	nw_limits limits = {64, 80, 8, SESSIONS};
	nw_committee its = {0};
	printf("store %d", (int)nw_store_new(&committee, &limits, &store));
	printf(" %d", (int)nw_store_limits(&store, &limits));
	printf(" %u %d\n", (unsigned)limits.window, (int)nw_store_committee(&store, &its));
	nw_committee_free(&its);
	for (made = 0; made < SESSIONS - 1 && nw_store_session(&store, &sessions[made]) == NW_DONE; made++)
		;
	while (steps-- > 0)
		step(calls);
	for (size_t i = 0; i < SESSIONS; i++)
		nw_session_free(&sessions[i]);
	nw_store_free(&store);
}

/* This many steps, on one store after another: a collection leaves a store with little to do. One of `calls` steps is no call. */
static void play(unsigned long steps, unsigned long calls)
{
	uint16_t signer = 0;
	printf("committee %d\n", (int)nw_committee_new(members, MEMBERS, &committee));
	for (size_t i = 0; i < message_count; i++) {
		printf("check %d", (int)nw_check(&committee, messages[i].bytes, messages[i].length, &messages[i].checked));
		printf(" %d", (int)nw_checked_kind(&messages[i].checked, &messages[i].told));
		for (size_t at = 0; nw_checked_signer(&messages[i].checked, at, &signer) == NW_DONE; at++)
			printf(" %u", (unsigned)signer);
		printf("\n");
	}
	for (size_t i = 0; i < SESSIONS; i++)
		printf("room %d\n", (int)nw_answer_new(&answers[i]));
	for (; steps > STORE; steps -= STORE)
		play_store(STORE, calls);
	play_store(steps, calls);
	for (size_t i = 0; i < SESSIONS; i++)
		nw_answer_free(&answers[i]);
	for (size_t i = 0; i < message_count; i++)
		nw_checked_free(&messages[i].checked);
	nw_committee_free(&committee);
}

static size_t bytes_of(const char *hex, uint8_t *out, size_t most)
{
	size_t length = 0;
	while (length < most && sscanf(hex + 2 * length, "%2hhx", out + length) == 1)
		length++;
	return length;
}

int main(int count, char **words)
{
	static char line[2 * ROOM + 16];
	while (fgets(line, sizeof line, stdin)) {
		if (!strncmp(line, "key ", 4) && member_count < MEMBERS)
			bytes_of(line + 4, members[member_count++].key, 32);
		else if (!strncmp(line, "message ", 8) && message_count < MESSAGES) {
			messages[message_count].length = bytes_of(line + 8, messages[message_count].bytes, ROOM);
			message_count++;
		}
	}
	if (count != 3 || member_count < MEMBERS || message_count == 0)
		return 2;
	random_state = 1;
	play(strtoul(words[1], NULL, 10), 8);
	do {
		random_state = 1;
		allocations = 0;
		refused++;
		play(SHORT, 2);
	} while (allocations >= refused && refused < strtoul(words[2], NULL, 10));
	printf("%lu allocations failed\n", failures);
	return 0;
}

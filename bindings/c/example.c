/* An example of a validator in C. It stores a block and its certificate, reads the block causally, and restarts the history.

       cc -std=c99 -I bindings/c bindings/c/example.c bindings/c/alloc.c bindings/rust/prebuilt/x86_64-linux/libnw.a -o /tmp/example
       /tmp/example

   OpenSSL signed the messages. The committee has four members. Each printed line has a call and its code. The exit status is 1 if memory
   runs out. */
#include "nw.h"
#include <stdio.h>
#include <stdlib.h>
#include <string.h>

static const char KEYS[] = "b1e281447549fd943d16645ad3dc9eadac410bf57b088568b28330f362eb6440"
			   "a4c8790bcd552bd37255db13022ca7099eaaa854aa4cc11ad56c412fffe96287"
			   "e90752e3d0e88b2a60d5ebab0c1dff2c3a6f96207fc64d01c76c491ce226cdf5"
			   "4ddf389f3afa80659373ef6aa9da2a431d1745cb3c93f8bcc5179b2f3d08135b";
/* The first member's block of round 0, with the transaction "x". */
static const char BLOCK[] = "01010000000000000000000000010000000178100df078007058a2a433eb0e865f10d7120fa20e3f6c89ac9c35510f7d4e6a92"
			    "faa7cc8417b30d9dbcdbc42b864b0828ad172bee46ecebf8f0aa3572d4c65406";
/* The block's certificate, with the votes of members 0, 1 and 3. */
static const char CERTIFICATE[] = "02ad5f105076afa169e3887acc36005405d73a816843e97e749449384f3c19f2050000000000000000000300009af1d253"
				  "3135fb248c8f10d4cc4553277987ca1d852e79d4f63b0762f35cfe4177e47693ee5d3b12f7c6687209012153b24a019108"
				  "72017e1ac6663d4d51940b0001f5ec3d8ffa342a1d86a25996f8a9197715ada0a4304927a1dd8283bda92c8821f86c1eae"
				  "fe90d13d1782417c7f09441dbff9e38033e293b20683de0f7129390e00033655174b2e79551c84048623072f7fb6c96d10"
				  "e628fd83136a1499a9ad2549057a9d18964278f188ffd3f4e6143b14b950f3e078290f084e841738b7d4d8300e";

static size_t bytes_of(const char *hex, uint8_t *out)
{
	size_t length = strlen(hex) / 2;
	for (size_t i = 0; i < length; i++) {
		unsigned value = 0;
		sscanf(hex + 2 * i, "%2x", &value);
		out[i] = (uint8_t)value;
	}
	return length;
}

static void tell(const char *what, int32_t code)
{
	printf("%s %d\n", what, (int)code);
	if (code == NW_NO_MEMORY)
		exit(1);
}

static void tell_reply(const char *what, int32_t code, nw_answer *answer)
{
	nw_tagged reply;
	tell(what, code);
	if (code == NW_DONE && nw_answer_reply(answer, &reply) == NW_DONE)
		printf("  reply %d number %llu\n", (int)reply.kind, (unsigned long long)reply.number);
}

int main(void)
{
	uint8_t keys[128], text[512], again[512], body[64];
	nw_member members[4], member = {{0}, 0};
	const nw_limits limits = {1024, 1024, 64, 1};
	nw_committee committee = {0};
	nw_checked block = {0}, certificate = {0};
	nw_store store = {0};
	nw_session session = {0};
	nw_answer answer = {0}, ticket = {0};
	nw_list list = {0};
	nw_block found = {0};
	nw_message message;
	nw_subject subject;
	nw_status status;
	nw_look look;
	uint32_t size = 0;
	size_t length = 0, events = 0;

	printf("version %d, interface %d\n", (int)nw_version(), (int)NW_ABI);
	bytes_of(KEYS, keys);
	for (size_t i = 0; i < 4; i++) {
		memcpy(members[i].key, keys + 32 * i, 32);
		members[i].weight = 1;
	}
	tell("store without a committee", nw_store_new(&committee, &limits, &store));
	tell("committee", nw_committee_new(members, 4, &committee));
	tell("size", nw_committee_size(&committee, &length));
	tell("member", nw_committee_member(&committee, 3, &member));
	printf("  of %d, with the given key: %d\n", (int)length, memcmp(member.key, members[3].key, 32) == 0);
	tell("store", nw_store_new(&committee, &limits, &store));
	tell("session", nw_store_session(&store, &session));
	tell("room for answers", nw_answer_new(&answer));
	tell("room for a ticket", nw_answer_new(&ticket));
	tell("check of the block", nw_check(&committee, text, bytes_of(BLOCK, text), &block));
	tell("check of the certificate", nw_check(&committee, text, bytes_of(CERTIFICATE, text), &certificate));
	tell("message of the checked block", nw_checked_message(&block, again, sizeof again, &length));
	printf("  the checked text: %s\n", length == bytes_of(BLOCK, text) && !memcmp(again, text, length) ? "yes" : "no");
	tell("what the certificate is", nw_checked_kind(&certificate, &message));
	printf("  kind %d round %llu author %d\n", (int)message.kind, (unsigned long long)message.subject.round, (int)message.subject.author);

	tell_reply("write", nw_session_hand_in(&session, &block, &answer), &answer);
	tell_reply("write again", nw_session_hand_in(&session, &block, &answer), &answer);
	tell_reply("causal read", nw_session_open(&session, &message.subject.digest, &ticket), &ticket);
	tell_reply("certify", nw_session_hand_in(&session, &certificate, &answer), &answer);
	tell("look", nw_session_look(&session, message.subject.round, message.subject.author, &look));
	printf("  certified %d, stands %d, complete %d\n", look.has_certified, look.stands, look.complete);
	tell_reply("causal read", nw_session_open(&session, &message.subject.digest, &ticket), &ticket);
	tell_reply("collect", nw_session_collect(&session, 1, &answer), &answer);
	tell("collect round 2^48", nw_session_collect(&session, (uint64_t)1 << 48, &answer));
	tell_reply("read", nw_session_read(&session, &message.subject.digest, &answer), &answer);

	tell("walk", nw_ticket_walk(&ticket, &list));
	tell("length", nw_list_len(&list, &length));
	printf("  %zu block\n", length);
	tell("first block", nw_list_block(&list, 0, &found));
	tell("subject", nw_block_subject(&found, &subject));
	printf("  the certified digest: %s\n", memcmp(subject.digest.bytes, message.subject.digest.bytes, 32) ? "no" : "yes");
	tell("transactions", nw_block_transactions(&found, body, sizeof body, &size, 1, &length));
	printf("  %zu byte, the first has %u: %c\n", length, (unsigned)size, body[0]);
	tell("body in little room", nw_block_body(&found, body, 4, &length));
	tell("body", nw_block_body(&found, body, sizeof body, &length));
	printf("  %zu bytes, the last is %c\n", length, body[length - 1]);

	tell_reply("status", nw_session_status(&session, &answer), &answer);
	tell("counts", nw_answer_status(&answer, &status));
	printf("  garbage round %llu, %llu blocks\n", (unsigned long long)status.garbage_round, (unsigned long long)status.blocks);
	tell("events", nw_answer_events(&answer, &events));
	printf("  %zu explain the answer\n", events);
	tell("restart", nw_session_restart(&session, &answer));
	tell("events of the ended run", nw_answer_events(&answer, &events));
	printf("  %zu\n", events);
	tell_reply("write after the restart", nw_session_hand_in(&session, &block, &answer), &answer);
	tell("events", nw_answer_events(&answer, &events));
	printf("  %zu explains the answer\n", events);

	nw_block_free(&found);
	nw_list_free(&list);
	nw_answer_free(&ticket);
	nw_answer_free(&answer);
	nw_session_free(&session);
	nw_store_free(&store);
	nw_checked_free(&certificate);
	nw_checked_free(&block);
	nw_committee_free(&committee);
	nw_committee_free(&committee);
	tell("collect round 2^48 after the end", nw_session_collect(&session, (uint64_t)1 << 48, &answer));
	tell("walk after the end", nw_ticket_walk(&ticket, &list));
	printf("  %s\n", nw_code_text(NW_CLOSED));
	return 0;
}

/* nw.h: the verified block store of a Narwhal validator, for C. Made by bindings/c/header from crates/nw_c; do not edit.

   A handle is one pointer, and {0} if it is closed. A function that makes a value takes a closed handle and opens it if it returns
   NW_DONE. For a closed handle or a handle of another kind, a function returns a code. Never copy an open handle. Close each with the
   function of its kind, as nw_block_free. It does nothing for NULL or a closed handle.

   The last sentence of a comment has the codes of its function. Of the codes after "or else", NW_NO_MEMORY may come before any other,
   unless the comment says which one comes first. But a session's function returns the first of NW_BUSY, NW_ENDED, NW_OTHER_COMMITTEE,
   NW_HISTORY_FULL and NW_NO_MEMORY, and then NW_SMALL or NW_OTHER_HISTORY. nw_settle looks at one session after another.

   The numbers of codes, kinds of texts, replies and calls do not overlap.

   The caller owes what the library cannot check:

   - Every pointer is valid, and only an array of length 0 may be NULL. No two parameters of one call are the same handle or overlap.
   - There is one call at a time on one handle, even if the parameter is const: the function leaves such a handle as it was, but no other
     call may use it meanwhile. A handle passes to another thread by a lock, by starting or joining a thread, or by a sequentially
     consistent atomic operation.
   - No call comes from a signal handler, or from the child of a fork of a process with more than one thread.
   - The allocation functions are as in nw_alloc.h.

   All other values are checked. If a buffer or an array is too small, a function writes only how much is needed, and returns NW_SMALL. So
   a length of 0 asks for the size. NW_DONE writes it too. Otherwise, a function writes its outputs only if it returns NW_DONE.

   Two threads may use two handles at once, even if these share a store, a committee, blocks or a history.

   Threads call one store (nw_store) at the same time, each through a handle and a session of its own. They need no lock: the store's own
   is proved. A call that comes while another thread has the lock returns NW_BUSY and changes nothing: call again. Checks and walks take
   no lock. A thread that is killed in the middle of a call may leave the store busy for good.

   A store has runs, and each run has one history. The first is run 0. nw_session_restart ends the run and begins the next: blocks,
   certificates and votes stay, and the history is empty. A session belongs to a run. Once its run has ended, its calls return NW_ENDED
   and change nothing, until nw_session_renew takes it into the present run. Answers and tickets never change.

   Each session numbers its calls of a run from 1. A refused call uses no number, and changes nothing but what its session knows. The
   store is in memory only: docs/EMBEDDING.md says what a validator logs. */
#ifndef NW_H
#define NW_H
#include <stdbool.h>
#include <stddef.h>
#include <stdint.h>

/* The version of this header. nw_version() returns that of the library. */
#define NW_VERSION "0.2.0"
#define NW_VERSION_NUMBER 200
/* The interface of this header. A program links only with a library of the same interface: see nw_interface_7. */
#define NW_ABI 7

/* The largest number of members of a committee. */
#define NW_MAX_MEMBERS 100
/* The largest weight of a member. */
#define NW_MAX_WEIGHT 1000000
/* The largest number of parents of a block. */
#define NW_MAX_PARENTS 100
/* The largest number of transactions of a block. */
#define NW_MAX_TRANSACTIONS 1024
/* The largest size of a transaction in bytes. */
#define NW_MAX_TRANSACTION 65536
/* The largest size of a body in bytes. */
#define NW_MAX_BODY 1048576
/* The largest number of votes of a certificate. */
#define NW_MAX_VOTES 100
/* The largest limit on blocks, and on certificates. */
#define NW_MAX_BLOCKS 65536
/* The largest limit on events of a history. */
#define NW_MAX_EVENTS 65536
/* The largest window. */
#define NW_MAX_WINDOW 4096
/* The largest limit on sessions. */
#define NW_MAX_SESSIONS 256

/* The compiler warns if a code is not used. */
#if defined(__GNUC__)
#define NW_USE __attribute__((warn_unused_result))
#else
#define NW_USE
#endif

#ifdef __cplusplus
extern "C" {
#endif

/* What the functions return. */
enum {
	/* Success. */
	NW_DONE = 0,
	/* Out of memory. Nothing changed but what sessions know. */
	NW_NO_MEMORY = 1,
	/* A handle that must be open is closed. */
	NW_CLOSED = 2,
	/* A handle that must be closed is open. */
	NW_OPEN = 3,
	/* A handle holds a value of another kind than the function takes. */
	NW_OTHER_KIND = 4,
	/* The members do not form a committee. There are none or more than 100, a weight is not 1 to 1,000,000, or a
	   key is repeated. */
	NW_BAD_COMMITTEE = 5,
	/* A limit is outside its range. */
	NW_BAD_LIMITS = 6,
	/* The call is out of turn. No function returns this code, because a session numbers its own calls. */
	NW_OUT_OF_TURN = 7,
	/* The block or certificate was checked under another committee than the store's. */
	NW_OTHER_COMMITTEE = 8,
	/* The history has reached its limit on events. */
	NW_HISTORY_FULL = 9,
	/* A round is not below 2^48. */
	NW_BAD_ROUND = 10,
	/* A buffer or an array is too small. Only the needed size was written. */
	NW_SMALL = 11,
	/* There is nothing at the index, or there is no such value. */
	NW_ABSENT = 12,
	/* The new block breaks a limit of the format, its parents do not ascend strictly, or its sizes do not add
	   up. */
	NW_OVER_LIMIT = 13,
	/* The author or signer is not a member of the committee. */
	NW_NO_MEMBER = 14,
	/* The vote is for another digest, round or author. */
	NW_OTHER_BLOCK = 15,
	/* A vote of the same signer was already counted. */
	NW_REPEATED = 16,
	/* The signature is not the signer's. */
	NW_BAD_SIGNATURE = 17,
	/* The counted votes do not reach the quorum. */
	NW_FEW_VOTES = 18,
	/* The two tickets have different digests or garbage rounds, so their lists cannot be compared. */
	NW_NOT_COMPARABLE = 19,
	/* Another thread has the lock of the store. Nothing changed but what sessions know. Call again. */
	NW_BUSY = 20,
	/* The store has made as many sessions as its limit allows. */
	NW_TOO_MANY_SESSIONS = 21,
	/* The history is no prefix of the history of the session's run. */
	NW_OTHER_HISTORY = 22,
	/* The sessions are not all sessions of one store, in the order of their numbers. */
	NW_UNSETTLED = 23,
	/* The run of the session has ended. Nothing changed but what sessions know. Renew the session. */
	NW_ENDED = 24,
};

/* The kinds of checked texts. */
enum {
	/* A block. A checked one is well formed. */
	NW_BLOCK = 101,
	/* A certificate. A checked one is valid. */
	NW_CERTIFICATE = 102,
	/* A vote. Its signature is not checked until it is added to the gathered votes. */
	NW_VOTE = 103,
	/* The text ends too early. */
	NW_TEXT_SHORT = 110,
	/* Bytes follow the message. */
	NW_TEXT_TRAILING = 111,
	/* The first byte is not that of a message. */
	NW_TEXT_TAG = 112,
	/* The version of the block is not 1. */
	NW_TEXT_VERSION = 113,
	/* The block has more than 100 parents. */
	NW_TEXT_MANY_PARENTS = 114,
	/* The parents' authors do not ascend strictly. */
	NW_TEXT_PARENT_ORDER = 115,
	/* The block has more than 1,024 transactions. */
	NW_TEXT_MANY_TRANSACTIONS = 116,
	/* A transaction has more than 65,536 bytes. */
	NW_TEXT_LONG_TRANSACTION = 117,
	/* The body has more than 1,048,576 bytes. */
	NW_TEXT_LONG_BODY = 118,
	/* The certificate has more than 100 votes. */
	NW_TEXT_MANY_VOTES = 119,
	/* The signers do not ascend strictly. */
	NW_TEXT_VOTE_ORDER = 120,
	/* The block's author is not a member. */
	NW_BLOCK_AUTHOR = 130,
	/* A parent's author is not a member. */
	NW_BLOCK_PARENT_AUTHOR = 131,
	/* A block of round 0 has parents. */
	NW_BLOCK_GENESIS_PARENTS = 132,
	/* The parents' authors do not reach a quorum. */
	NW_BLOCK_FEW_PARENTS = 133,
	/* The block's signature is not its author's. */
	NW_BLOCK_SIGNATURE = 134,
	/* The certificate's author is not a member. */
	NW_CERT_AUTHOR = 140,
	/* A signer is not a member. */
	NW_CERT_SIGNER = 141,
	/* The signers do not reach a quorum. */
	NW_CERT_FEW_VOTES = 142,
	/* The signature of signer is not that member's. All signatures before it are correct. */
	NW_CERT_SIGNATURE = 143,
};

/* The kinds of replies. */
enum {
	/* Write: the block is now stored, and it is the first of its round and author. Vote for it once all its
	   parents are stored and certified (nw_session_missing_of). A block of the garbage round needs no parents. */
	NW_STORED_VOTE = 201,
	/* Write: the block is now stored, without a vote: another block of its round and author came first, but this
	   one is certified. */
	NW_STORED = 202,
	/* Write: the same block is already stored. */
	NW_HELD = 203,
	/* Write: another block is stored under the digest. */
	NW_CLASH = 204,
	/* Write: not stored, because another block of this round and author came first. digest is the digest of that
	   block. Drop the block, and fetch it if its own digest is certified. */
	NW_EQUIVOCATES = 205,
	/* Certificate: it is now stored. */
	NW_CERTIFIED = 206,
	/* Certificate: the digest is already certified for the same round and author. */
	NW_ALREADY = 207,
	/* Certificate: another digest is certified for the round and author. digest is that digest. */
	NW_CONFLICT = 208,
	/* Write or certificate: the round is below the garbage round. number is the garbage round. */
	NW_COLLECTED = 209,
	/* Write or certificate: the round is at or above the garbage round plus the window. Drop it, and fetch it
	   after a collection. */
	NW_TOO_FAR = 210,
	/* Write or certificate: a stored block or certificate of this digest has another round or author. */
	NW_MISFIT = 211,
	/* Write or certificate: the store has reached its limit on blocks or on certificates. Drop it, and fetch it
	   after a collection. */
	NW_FULL = 212,
	/* Read or call for a certificate: it was found. */
	NW_FOUND = 213,
	/* Read, causal read, call for a certificate or for the missing parents of a block: no block or certificate
	   of this digest is stored. */
	NW_UNKNOWN = 214,
	/* Causal read: the digest is not certified. */
	NW_UNCERTIFIED = 215,
	/* Causal read: an ancestor has a parent that is not stored and certified with the named author and the
	   preceding round. */
	NW_INCOMPLETE = 216,
	/* Causal read: the answer is a ticket, whose list can be walked. */
	NW_READY = 217,
	/* Collection: the garbage round was raised, and number blocks were dropped. */
	NW_RAISED = 218,
	/* Collection: the garbage round was already as high. number is the garbage round. */
	NW_NOT_HIGHER = 219,
	/* Call for missing parents: number of them are listed. */
	NW_MISSING = 220,
	/* Call for the status. */
	NW_STATUS = 221,
};

/* The kinds of calls. */
enum {
	/* A write of the block of digest. */
	NW_CALL_WRITE = 301,
	/* A certificate handed in for digest. */
	NW_CALL_CERTIFY = 302,
	/* A call for the certificate of digest. */
	NW_CALL_CERTIFICATE = 303,
	/* A read of digest. */
	NW_CALL_READ = 304,
	/* A causal read of digest. */
	NW_CALL_CAUSAL = 305,
	/* A collection of the rounds below number. */
	NW_CALL_COLLECT = 306,
	/* A call for the first number missing parents. */
	NW_CALL_MISSING = 307,
	/* A call for the status. */
	NW_CALL_STATUS = 308,
	/* A call for the missing parents of the block of digest. */
	NW_CALL_MISSING_OF = 309,
};

/* A committee. */
typedef struct {
	void *at;
} nw_committee;
/* A checked text: a block, a certificate, a vote, or the rule that the text breaks. */
typedef struct {
	void *at;
} nw_checked;
/* The votes gathered for one block. */
typedef struct {
	void *at;
} nw_gather;
/* Room for an answer, an answer, a ticket, or a history. A ticket is the answer to a causal read whose list
   can be walked. A history is a note of a session, the last history of an ended run, or what sessions
   settled on. */
typedef struct {
	void *at;
} nw_answer;
/* The list of blocks of a walk. */
typedef struct {
	void *at;
} nw_list;
/* A block. */
typedef struct {
	void *at;
} nw_block;
/* A store that threads share: the stored blocks and certificates, and the history of the calls of the
   present run. Each thread has a handle of its own. */
typedef struct {
	void *at;
} nw_store;
/* A session of a store: the calls of one thread in one run. */
typedef struct {
	void *at;
} nw_session;
/* The sessions that are given to a settlement. */
typedef struct {
	void *at;
} nw_settlement;

/* A digest: 32 bytes of SHA-256. */
typedef struct {
	uint8_t bytes[32];
} nw_digest;

/* An Ed25519 signature of 64 bytes. */
typedef struct {
	uint8_t bytes[64];
} nw_signature;

/* The digest of a block with the block's round and author. Votes and certificates are for a subject. */
typedef struct {
	nw_digest digest;
	uint64_t round;
	uint16_t author;
} nw_subject;

/* What a call or a reply is: its kind, and the number or digest that the kind's comment names. A number or
   digest that it does not name is 0. */
typedef struct {
	int32_t kind;
	uint64_t number;
	nw_digest digest;
} nw_tagged;

/* A member of a committee: an Ed25519 public key of 32 bytes and a weight from 1 to 1,000,000. */
typedef struct {
	uint8_t key[32];
	uint32_t weight;
} nw_member;

/* The 36 bytes that the author of a block signs. */
typedef struct {
	uint8_t bytes[36];
} nw_block_text;

/* The 44 bytes that a member signs to vote for a block. */
typedef struct {
	uint8_t bytes[44];
} nw_vote_text;

/* A parent of a block: its author and its digest. */
typedef struct {
	uint16_t author;
	nw_digest digest;
} nw_parent;

/* What a checked text is, or what its first bytes say: its kind, the subject of a block, certificate or
   vote, and the signer of a vote or of a wrong signature. Fields that the kind does not use are 0. */
typedef struct {
	int32_t kind;
	uint16_t signer;
	nw_subject subject;
} nw_message;

/* The limits of a store. blocks limits the stored blocks, and separately the certificates: 1 to 65,536.
   events limits the events of the history of a run: 1 to 65,536. window is the number of rounds that the
   store accepts, from the garbage round on: 1 to 4,096. sessions limits the sessions, which are numbered
   from 0: 1 to 256. */
typedef struct {
	uint32_t blocks;
	uint32_t events;
	uint32_t window;
	uint32_t sessions;
} nw_limits;

/* What a store has in a slot, that is, for a round and an author: the garbage round, the newest round with a
   digest (the garbage round if none is newer), the digest of the slot's first block, how many parents this
   block misses, and the certified digest. A digest that the slot lacks is 0, and its flag is not set. stands
   is set if the block of the certified digest is stored, and complete if also all its ancestors above the
   garbage round have their parents. */
typedef struct {
	uint64_t garbage_round;
	uint64_t newest_round;
	size_t missing;
	nw_digest first;
	nw_digest certified;
	bool has_first;
	bool has_certified;
	bool stands;
	bool complete;
} nw_look;

/* What a store has in the slot of this author. */
typedef struct {
	uint16_t author;
	nw_look look;
} nw_author_look;

/* The counts of a store: its garbage round, and how many blocks, certificates, complete blocks and missing
   parents (wanted) it has. */
typedef struct {
	uint64_t garbage_round;
	uint64_t blocks;
	uint64_t certificates;
	uint64_t complete;
	uint64_t wanted;
} nw_status;

/* An event of a history: the session, the number of the session's call, counted from 1, the call, and its
   reply. */
typedef struct {
	uint16_t session;
	uint32_t number;
	nw_tagged call;
	nw_tagged reply;
} nw_event;

/* Makes a committee of 1 to 100 members. A member's number is its index in the array. Returns
   NW_BAD_COMMITTEE if there are too few or too many members, a weight is out of range, or a key is repeated.
   It prepares the members' keys, with which checks and gatherings take less than half the time. This costs
   24 KiB of memory for each member and 384 KiB once, and 20 to 40 ms for 100 members. All handles of
   nw_committee_share have the same prepared keys. The code is NW_OPEN if it applies, or else NW_DONE,
   NW_NO_MEMORY or NW_BAD_COMMITTEE. */
NW_USE int32_t nw_committee_new(const nw_member *members, size_t members_len, nw_committee *out);

/* Opens a second handle of the committee, which another thread can use. Both handles share the members. The
   code is the first of NW_CLOSED, NW_OPEN and NW_OTHER_KIND that applies, or else NW_DONE or NW_NO_MEMORY. */
NW_USE int32_t nw_committee_share(const nw_committee *committee, nw_committee *out);

/* Writes the number of members. The code is the first of NW_CLOSED and NW_OTHER_KIND that applies, or else
   NW_DONE. */
NW_USE int32_t nw_committee_size(const nw_committee *committee, size_t *out);

/* Writes the key and the weight of the member with this number. Returns NW_ABSENT if there is no such
   member. The code is the first of NW_CLOSED, NW_OTHER_KIND and NW_ABSENT that applies, or else NW_DONE. */
NW_USE int32_t nw_committee_member(const nw_committee *committee, uint16_t number, nw_member *out);

/* Writes the quorum: the least weight that is more than two thirds of the total weight. The code is the
   first of NW_CLOSED and NW_OTHER_KIND that applies, or else NW_DONE. */
NW_USE int32_t nw_committee_quorum(const nw_committee *committee, uint32_t *out);

/* Writes the SHA-256 digest of the bytes. */
void nw_digest_of(const uint8_t *bytes, size_t bytes_len, nw_digest *out);

/* Writes the text that the author of a block with this digest signs. */
void nw_text_of_block(const nw_digest *digest, nw_block_text *out);

/* Writes the text that a member signs to vote for the block of this digest, round and author. Returns
   NW_BAD_ROUND if the round is not below 2^48. The code is NW_BAD_ROUND if it applies, or else NW_DONE. */
NW_USE int32_t nw_text_of_vote(const nw_subject *subject, nw_vote_text *out);

/* Writes the message of the signer's vote for the block of this digest, round and author: 107 bytes. Writes
   this size to needed. Returns NW_BAD_ROUND if the round is not below 2^48, and NW_SMALL if the buffer is
   smaller. It does not check the signature, and needs no memory. The code is the first of NW_BAD_ROUND and
   NW_SMALL that applies, or else NW_DONE. */
NW_USE int32_t nw_vote_message(const nw_subject *subject, uint16_t signer, const nw_signature *signature, uint8_t *buffer, size_t buffer_len, size_t *needed);

/* Makes a block of this author and round. transactions has the bytes of all transactions, one after another,
   and lengths has the size of each. Parents must ascend strictly by author. A block has at most 100 parents,
   1,024 transactions of at most 65,536 bytes each, and a body of 1,048,576 bytes. Returns NW_BAD_ROUND if
   the round is not below 2^48. Returns NW_OVER_LIMIT if the parents do not ascend, a limit is exceeded, or
   the sizes do not add up to the number of bytes. It checks nothing against a committee. The code is the
   first of NW_OPEN and NW_BAD_ROUND that applies, or else NW_DONE, NW_NO_MEMORY or NW_OVER_LIMIT. */
NW_USE int32_t nw_block_new(uint16_t author, uint64_t round, const nw_parent *parents, size_t parents_len, const uint8_t *transactions, size_t transactions_len, const uint32_t *lengths, size_t lengths_len, nw_block *out);

/* Writes the digest, round and author of the block. It hashes nothing: every block handle keeps its digest.
   The code is the first of NW_CLOSED and NW_OTHER_KIND that applies, or else NW_DONE. */
NW_USE int32_t nw_block_subject(const nw_block *block, nw_subject *out);

/* Writes how many parents and how many transactions the block has. The code is the first of NW_CLOSED and
   NW_OTHER_KIND that applies, or else NW_DONE. */
NW_USE int32_t nw_block_counts(const nw_block *block, size_t *parents, size_t *transactions);

/* Writes the parent at the index, counted from 0. Parents ascend by author. Returns NW_ABSENT if the block
   has no such parent. The code is the first of NW_CLOSED and NW_OTHER_KIND that applies, or else NW_DONE or
   NW_ABSENT. */
NW_USE int32_t nw_block_parent(const nw_block *block, size_t index, nw_parent *out);

/* Writes the encoded body of the block to the buffer. The block's digest is SHA-256 of these bytes. Writes
   their size to needed. Returns NW_SMALL if the buffer is smaller. It needs no memory. The code is the first
   of NW_CLOSED, NW_OTHER_KIND and NW_SMALL that applies, or else NW_DONE. */
NW_USE int32_t nw_block_body(const nw_block *block, uint8_t *buffer, size_t buffer_len, size_t *needed);

/* Writes the message of the block with this signature, which can be sent to other members. Writes its size
   to needed. Returns NW_SMALL if the buffer is smaller. It does not check the signature, and needs no
   memory. The code is the first of NW_CLOSED, NW_OTHER_KIND and NW_SMALL that applies, or else NW_DONE. */
NW_USE int32_t nw_block_message(const nw_block *block, const nw_signature *signature, uint8_t *buffer, size_t buffer_len, size_t *needed);

/* Copies all transactions of the block to the buffer, one after another, and their sizes to lengths, in the
   form that nw_block_new takes. Writes the size of all together to needed. Returns NW_SMALL if the buffer is
   smaller than that, or if lengths has fewer places than the block has transactions (nw_block_counts). The
   code is the first of NW_CLOSED and NW_OTHER_KIND that applies, or else NW_DONE or NW_SMALL. */
NW_USE int32_t nw_block_transactions(const nw_block *block, uint8_t *buffer, size_t buffer_len, uint32_t *lengths, size_t lengths_len, size_t *needed);

/* Writes what the first bytes of the text say: the kind of message, its round and author, the digest of a
   certificate or vote, and the signer of a vote. A block's digest is not in its text, and is written as 0.
   Reads at most 43 bytes, and neither hashes nor verifies anything: anybody can write these bytes, and the
   text may still be no message. If nw_check accepts the text, the checked message has the same fields.
   Returns NW_ABSENT if the first byte is not that of a message, the version of a block is not 1, or the text
   ends before these fields do. The code is NW_ABSENT if it applies, or else NW_DONE. */
NW_USE int32_t nw_peek(const uint8_t *text, size_t text_len, nw_message *out);

/* Decodes the text and checks its message under the committee. It also returns NW_DONE for a text that is
   not a message, and for a block or certificate that breaks a rule. nw_checked_kind says what the text is.
   The code is the first of NW_CLOSED, NW_OPEN and NW_OTHER_KIND that applies, or else NW_DONE or
   NW_NO_MEMORY. */
NW_USE int32_t nw_check(const nw_committee *committee, const uint8_t *text, size_t text_len, nw_checked *out);

/* Writes what the checked text is: a block, a certificate, a vote, or the first rule that it breaks. The
   code is the first of NW_CLOSED and NW_OTHER_KIND that applies, or else NW_DONE. */
NW_USE int32_t nw_checked_kind(const nw_checked *checked, nw_message *out);

/* Opens a handle of the checked block. Returns NW_OTHER_KIND if the text is no well-formed block. The code
   is the first of NW_CLOSED, NW_OPEN and NW_OTHER_KIND that applies, or else NW_DONE or NW_NO_MEMORY. */
NW_USE int32_t nw_checked_block(const nw_checked *checked, nw_block *out);

/* Writes the message of the checked block, certificate or vote, which can be sent to other members. Writes
   its size to needed. Returns NW_SMALL if the buffer is smaller, and NW_OTHER_KIND if the text is neither a
   well-formed block, nor a valid certificate, nor a vote. It needs no memory. The code is the first of
   NW_CLOSED, NW_OTHER_KIND and NW_SMALL that applies, or else NW_DONE. */
NW_USE int32_t nw_checked_message(const nw_checked *checked, uint8_t *buffer, size_t buffer_len, size_t *needed);

/* Writes the number of the signer at the index, counted from 0, of the checked certificate. Signers ascend.
   Returns NW_ABSENT if the certificate has no such signer, and NW_OTHER_KIND if the text is not a valid
   certificate. The code is the first of NW_CLOSED and NW_OTHER_KIND that applies, or else NW_DONE or
   NW_ABSENT. */
NW_USE int32_t nw_checked_signer(const nw_checked *checked, size_t index, uint16_t *out);

/* Starts to gather votes for the block of this subject. Returns NW_BAD_ROUND if the round is not below 2^48,
   and NW_NO_MEMBER if the author is not a member. The code is the first of NW_CLOSED, NW_OPEN,
   NW_OTHER_KIND, NW_BAD_ROUND and NW_NO_MEMBER that applies, or else NW_DONE or NW_NO_MEMORY. */
NW_USE int32_t nw_gather_new(const nw_committee *committee, const nw_subject *subject, nw_gather *out);

/* Checks the signature of the vote and counts the vote. Writes to quorum whether the counted votes reach the
   quorum. Refuses a vote with the first of NW_OTHER_BLOCK, NW_REPEATED, NW_NO_MEMBER, NW_BAD_SIGNATURE and
   NW_NO_MEMORY that applies, and then changes nothing. Returns NW_OTHER_KIND if the checked text is not a
   vote. The code is the first of NW_CLOSED and NW_OTHER_KIND that applies, or else NW_DONE, NW_OTHER_BLOCK,
   NW_REPEATED, NW_NO_MEMBER, NW_BAD_SIGNATURE or NW_NO_MEMORY. */
NW_USE int32_t nw_gather_add(nw_gather *gather, const nw_checked *vote, bool *quorum);

/* Makes the certificate of the counted votes and opens a handle of it, as a checked text. Returns
   NW_FEW_VOTES if the votes do not reach the quorum. More votes can be added afterwards. The code is the
   first of NW_CLOSED, NW_OPEN, NW_OTHER_KIND and NW_FEW_VOTES that applies, or else NW_DONE or NW_NO_MEMORY. */
NW_USE int32_t nw_gather_certificate(const nw_gather *gather, nw_checked *out);

/* Makes a store under the committee and the limits. Its first run, run 0, has an empty history. Threads may
   call it at the same time without a lock of their own: each through a handle of its own, see
   nw_store_share, and sessions of its own. Returns NW_BAD_LIMITS if a limit is out of range. The code is the
   first of NW_CLOSED, NW_OPEN and NW_OTHER_KIND that applies, or else NW_DONE, NW_NO_MEMORY or
   NW_BAD_LIMITS. */
NW_USE int32_t nw_store_new(const nw_committee *committee, const nw_limits *limits, nw_store *out);

/* Opens one more handle of the store, for another thread. The store lives until its last handle and its last
   session are freed. The code is the first of NW_CLOSED, NW_OPEN and NW_OTHER_KIND that applies, or else
   NW_DONE or NW_NO_MEMORY. */
NW_USE int32_t nw_store_share(nw_store *store, nw_store *out);

/* Makes a session of the present run, which has made no call. A store numbers its sessions from 0, in all
   runs together. Returns NW_BUSY if another thread has the lock, and NW_TOO_MANY_SESSIONS at the limit on
   sessions. The code is the first of NW_CLOSED, NW_OPEN and NW_OTHER_KIND that applies, or else NW_DONE,
   NW_BUSY, NW_TOO_MANY_SESSIONS or NW_NO_MEMORY. */
NW_USE int32_t nw_store_session(nw_store *store, nw_session *out);

/* Writes the limits that the store was made with. Returns NW_BUSY if another thread has the lock. The code
   is the first of NW_CLOSED and NW_OTHER_KIND that applies, or else NW_DONE, NW_BUSY or NW_NO_MEMORY. */
NW_USE int32_t nw_store_limits(const nw_store *store, nw_limits *out);

/* Opens a handle of the store's committee. It prepares the keys again, which costs what it costs in
   nw_committee_new. Returns NW_BUSY if another thread has the lock. The code is the first of NW_CLOSED,
   NW_OPEN and NW_OTHER_KIND that applies, or else NW_DONE, NW_BUSY or NW_NO_MEMORY. */
NW_USE int32_t nw_store_committee(const nw_store *store, nw_committee *out);

/* Rebuilds the list of complete blocks that tickets share, without collected blocks. Later tickets share the
   new list, and earlier tickets keep theirs. It changes nothing that a call can observe. Returns NW_BUSY if
   another thread has the lock. The code is the first of NW_CLOSED and NW_OTHER_KIND that applies, or else
   NW_DONE, NW_BUSY or NW_NO_MEMORY. */
NW_USE int32_t nw_store_compact(const nw_store *store);

/* Writes the session's number. A store numbers its sessions from 0, in the order in which it makes them. The
   code is the first of NW_CLOSED and NW_OTHER_KIND that applies, or else NW_DONE. */
NW_USE int32_t nw_session_id(const nw_session *session, uint16_t *out);

/* Writes the checked block, or certifies the digest of the checked certificate, as the session's next call.
   Returns NW_BUSY if another thread has the lock: call again. Returns NW_ENDED if the run of the session has
   ended: renew the session. The handle of the checked text stays open, and the text may be handed to other
   stores. Returns NW_OTHER_KIND if the text is neither a well-formed block nor a valid certificate. The code
   is the first of NW_CLOSED and NW_OTHER_KIND that applies, or else NW_DONE, NW_BUSY, NW_ENDED,
   NW_OTHER_COMMITTEE, NW_HISTORY_FULL or NW_NO_MEMORY. */
NW_USE int32_t nw_session_hand_in(nw_session *session, const nw_checked *checked, nw_answer *answer);

/* Asks for the certificate of the digest, as the session's next call. The code is the first of NW_CLOSED and
   NW_OTHER_KIND that applies, or else NW_DONE, NW_BUSY, NW_ENDED, NW_OTHER_COMMITTEE, NW_HISTORY_FULL or
   NW_NO_MEMORY. */
NW_USE int32_t nw_session_certificate(nw_session *session, const nw_digest *digest, nw_answer *answer);

/* Asks for the block of the digest, as the session's next call. The code is the first of NW_CLOSED and
   NW_OTHER_KIND that applies, or else NW_DONE, NW_BUSY, NW_ENDED, NW_OTHER_COMMITTEE, NW_HISTORY_FULL or
   NW_NO_MEMORY. */
NW_USE int32_t nw_session_read(nw_session *session, const nw_digest *digest, nw_answer *answer);

/* Raises the garbage round to this round and drops everything of lower rounds, as the session's next call.
   Returns NW_BAD_ROUND if the round is not below 2^48. The code is the first of NW_CLOSED, NW_OTHER_KIND and
   NW_BAD_ROUND that applies, or else NW_DONE, NW_BUSY, NW_ENDED, NW_OTHER_COMMITTEE, NW_HISTORY_FULL or
   NW_NO_MEMORY. */
NW_USE int32_t nw_session_collect(nw_session *session, uint64_t round, nw_answer *answer);

/* Asks for the first most missing parents, or for all if there are fewer, as the session's next call. They
   ascend by round, author and digest. The code is the first of NW_CLOSED and NW_OTHER_KIND that applies, or
   else NW_DONE, NW_BUSY, NW_ENDED, NW_OTHER_COMMITTEE, NW_HISTORY_FULL or NW_NO_MEMORY. */
NW_USE int32_t nw_session_missing(nw_session *session, uint16_t most, nw_answer *answer);

/* Asks for the missing parents of the block of the digest, as the session's next call: those that it refers
   to, and that are not stored or not certified. They ascend by author and digest. A block that is not above
   the garbage round has none. The code is the first of NW_CLOSED and NW_OTHER_KIND that applies, or else
   NW_DONE, NW_BUSY, NW_ENDED, NW_OTHER_COMMITTEE, NW_HISTORY_FULL or NW_NO_MEMORY. */
NW_USE int32_t nw_session_missing_of(nw_session *session, const nw_digest *digest, nw_answer *answer);

/* Asks for the counts of the store, as the session's next call. The code is the first of NW_CLOSED and
   NW_OTHER_KIND that applies, or else NW_DONE, NW_BUSY, NW_ENDED, NW_OTHER_COMMITTEE, NW_HISTORY_FULL or
   NW_NO_MEMORY. */
NW_USE int32_t nw_session_status(nw_session *session, nw_answer *answer);

/* Opens a causal read of the digest, as the session's next call. The answer is a ticket if the digest is
   complete: the block and its ancestors, down to the garbage round, are stored and certified. Otherwise the
   reply of the answer says why there is no ticket. A ticket is walked without the lock. The code is the
   first of NW_CLOSED and NW_OTHER_KIND that applies, or else NW_DONE, NW_BUSY, NW_ENDED, NW_OTHER_COMMITTEE,
   NW_HISTORY_FULL or NW_NO_MEMORY. */
NW_USE int32_t nw_session_open(nw_session *session, const nw_digest *digest, nw_answer *answer);

/* Writes what the store has in the slot of this round and author, after a history that has all calls that
   the session knows of. This is not a call: it adds no event. A parent of a block of the next round, with
   this author and a digest, is stored and certified exactly when the digest is the certified one and stands
   is set. An author who is not a member has an empty slot. Returns NW_BAD_ROUND if the round is not below
   2^48, NW_BUSY if another thread has the lock, and NW_ENDED if the run of the session has ended. The code
   is the first of NW_CLOSED, NW_OTHER_KIND and NW_BAD_ROUND that applies, or else NW_DONE, NW_BUSY or
   NW_ENDED. */
NW_USE int32_t nw_session_look(nw_session *session, uint64_t round, uint16_t author, nw_look *out);

/* Writes what the store has in each slot of this round that has a first or a certified digest, ascending by
   author, after a history that has all calls that the session knows of. Writes the number of these slots to
   needed; it is at most the number of members. Returns NW_BAD_ROUND if the round is not below 2^48, NW_BUSY
   if another thread has the lock, NW_ENDED if the run of the session has ended, and NW_SMALL if the array is
   smaller. It needs memory, even for an array of length 0. This is not a call: it adds no event. The code is
   the first of NW_CLOSED, NW_OTHER_KIND and NW_BAD_ROUND that applies, or else NW_DONE, NW_SMALL, NW_BUSY,
   NW_ENDED or NW_NO_MEMORY. */
NW_USE int32_t nw_session_look_round(nw_session *session, uint64_t round, nw_author_look *looks, size_t looks_len, size_t *needed);

/* Writes the number of the session's run. A store begins with run 0. The code is the first of NW_CLOSED and
   NW_OTHER_KIND that applies, or else NW_DONE. */
NW_USE int32_t nw_session_run(const nw_session *session, uint64_t *out);

/* Ends the run and begins the next, to which the session then belongs. The store keeps its blocks,
   certificates, votes and garbage round, so no round and author gets a second vote. The history of the next
   run is empty, and the calls of each session are numbered from 1 again. It replaces the content of answer
   with the last history of the ended run. Calls of the other sessions return NW_ENDED, until
   nw_session_renew. Earlier answers, tickets and notes do not change. It copies the tables, and shares the
   blocks and certificates, so its time depends only on how many are stored. Returns NW_BUSY if another
   thread has the lock, NW_ENDED if the run of the session has ended, and NW_NO_MEMORY also after 2^64 - 1
   runs. The code is the first of NW_CLOSED and NW_OTHER_KIND that applies, or else NW_DONE, NW_BUSY,
   NW_ENDED or NW_NO_MEMORY. */
NW_USE int32_t nw_session_restart(nw_session *session, nw_answer *answer);

/* Takes the session into the present run, with its number and no calls. If it is of the present run, it only
   looks at the history. This is not a call. Returns NW_BUSY if another thread has the lock. The code is the
   first of NW_CLOSED and NW_OTHER_KIND that applies, or else NW_DONE or NW_BUSY. */
NW_USE int32_t nw_session_renew(nw_session *session);

/* Replaces the content of answer with a note: the history of the session's run as it is now. This is not a
   call. A session of the same run that hears the note knows all that this session knows. Returns NW_BUSY if
   another thread has the lock, and NW_ENDED if the run of the session has ended. The code is the first of
   NW_CLOSED and NW_OTHER_KIND that applies, or else NW_DONE, NW_BUSY, NW_ENDED or NW_NO_MEMORY. */
NW_USE int32_t nw_session_note(nw_session *session, nw_answer *answer);

/* Hears a note of another session of the same run, or an answer or ticket of it. From then on, its history
   is a prefix of the history of every answer of this session in this run. This is not a call. Returns
   NW_BUSY if another thread has the lock, NW_ENDED if the run of the session has ended, and NW_OTHER_HISTORY
   if the note is no prefix of the run's history, for instance because it is of another store or run. A note
   of another store is heard too if its history is such a prefix. The time grows with the number of events of
   the note and with the state that its history started from. The code is the first of NW_CLOSED and
   NW_OTHER_KIND that applies, or else NW_DONE, NW_OTHER_HISTORY, NW_BUSY, NW_ENDED or NW_NO_MEMORY. */
NW_USE int32_t nw_session_hear(nw_session *session, const nw_answer *note);

/* Makes a settlement, to which no session is given. The code is NW_OPEN if it applies, or else NW_DONE or
   NW_NO_MEMORY. */
NW_USE int32_t nw_settlement_new(nw_settlement *out);

/* Gives the session to the settlement, and closes its handle. Give the sessions in the order of their
   numbers. The code is the first of NW_CLOSED and NW_OTHER_KIND that applies, or else NW_DONE or
   NW_NO_MEMORY. */
NW_USE int32_t nw_settlement_give(nw_settlement *settlement, nw_session *session);

/* Settles the sessions that were given, which must be all that one store made, in the order of their
   numbers, and of the present run. It replaces the content of answer with the run's history, which is an
   interleaving of their calls in this run. The history of each answer to these calls is a prefix of it. The
   sessions stay with the settlement. Returns NW_BUSY if another thread has a store's lock, NW_ENDED if the
   run of a session has ended, and NW_UNSETTLED if they are not all sessions of one store, not in order, or
   none. It takes two stores with equal histories for one. For each session, the time grows with the number
   of events and with the state that the history started from. The code is the first of NW_CLOSED and
   NW_OTHER_KIND that applies, or else NW_DONE, NW_UNSETTLED, NW_BUSY, NW_ENDED or NW_NO_MEMORY. */
NW_USE int32_t nw_settle(nw_settlement *settlement, nw_answer *answer);

/* Takes back the session that was given last, which may go on calling. Returns NW_ABSENT if the settlement
   has no session. The code is the first of NW_CLOSED, NW_OPEN and NW_OTHER_KIND that applies, or else
   NW_DONE, NW_NO_MEMORY or NW_ABSENT. */
NW_USE int32_t nw_settlement_take(nw_settlement *settlement, nw_session *out);

/* Makes room for an answer. Make it before the call, so that a call that was taken never runs out of memory
   for its answer. The room can be used again: a new answer replaces the old one. A refused call leaves the
   old one in place. The code is NW_OPEN if it applies, or else NW_DONE or NW_NO_MEMORY. */
NW_USE int32_t nw_answer_new(nw_answer *out);

/* Opens a handle of the block that a read found. Returns NW_ABSENT if the read found none, and NW_OTHER_KIND
   if the answer is not to a read. The code is the first of NW_CLOSED, NW_OPEN and NW_OTHER_KIND that
   applies, or else NW_DONE, NW_ABSENT or NW_NO_MEMORY. */
NW_USE int32_t nw_answer_block(const nw_answer *answer, nw_block *out);

/* Writes the message of the certificate that a call for a certificate found. Writes its size to needed.
   Returns NW_SMALL if the buffer is smaller, NW_ABSENT if the call found no certificate, and NW_OTHER_KIND
   if the answer is to another call. It needs no memory. The code is the first of NW_CLOSED, NW_OTHER_KIND,
   NW_ABSENT and NW_SMALL that applies, or else NW_DONE. */
NW_USE int32_t nw_answer_message(const nw_answer *answer, uint8_t *buffer, size_t buffer_len, size_t *needed);

/* Writes one of the parents that a call for missing parents listed, of all blocks or of one. index counts
   from 0. Returns NW_ABSENT if the list has no parent at that index, and NW_OTHER_KIND if the answer is to
   another call or lists nothing because the block is not stored. The code is NW_CLOSED if it applies, or
   else NW_DONE, NW_OTHER_KIND or NW_ABSENT. */
NW_USE int32_t nw_answer_missing(const nw_answer *answer, size_t index, nw_subject *out);

/* Writes the counts of a call for the status. Returns NW_OTHER_KIND if the answer is to another call. The
   code is the first of NW_CLOSED and NW_OTHER_KIND that applies, or else NW_DONE. */
NW_USE int32_t nw_answer_status(const nw_answer *answer, nw_status *out);

/* Writes the reply of the answer. The reply of a ticket is NW_READY. Returns NW_OTHER_KIND for a history,
   and for room without an answer. The code is the first of NW_CLOSED and NW_OTHER_KIND that applies, or else
   NW_DONE. */
NW_USE int32_t nw_answer_reply(const nw_answer *answer, nw_tagged *out);

/* Writes the number of events in the history, or in the history of the answer or ticket. The last event of
   an answer or ticket is its own call. The code is the first of NW_CLOSED and NW_OTHER_KIND that applies, or
   else NW_DONE. */
NW_USE int32_t nw_answer_events(const nw_answer *answer, size_t *out);

/* Writes the event at the index, counted from 0, of the history, or of the history of the answer or ticket.
   Returns NW_ABSENT if there is no such event. The code is the first of NW_CLOSED and NW_OTHER_KIND that
   applies, or else NW_DONE or NW_ABSENT. */
NW_USE int32_t nw_answer_event(const nw_answer *answer, size_t index, nw_event *out);

/* Writes whether the history of answer is a prefix of the history of other. It is if both have the same
   committee, limits and base, and the first events of other are the events of answer. Of a write or
   certificate that changed nothing, except after NW_CLASH, an event has only the subject, so its votes are
   not compared. The time grows with the number of these events and with the base. Both handles may be
   answers, tickets or histories. The code is the first of NW_CLOSED and NW_OTHER_KIND that applies, or else
   NW_DONE. */
NW_USE int32_t nw_answer_is_prefix(const nw_answer *answer, const nw_answer *other, bool *out);

/* Writes the digest that the ticket is for, and the garbage round at the call that gave the ticket. The code
   is the first of NW_CLOSED and NW_OTHER_KIND that applies, or else NW_DONE. */
NW_USE int32_t nw_ticket_scope(const nw_answer *ticket, nw_digest *digest, uint64_t *garbage_round);

/* Compares the lists of both tickets, and writes whether they are equal. The tickets may come from two
   stores. If the lists differ, two different blocks have the same digest. Returns NW_NOT_COMPARABLE if the
   tickets have different digests or garbage rounds. The code is the first of NW_CLOSED, NW_OTHER_KIND and
   NW_NOT_COMPARABLE that applies, or else NW_DONE or NW_NO_MEMORY. */
NW_USE int32_t nw_ticket_agree(const nw_answer *ticket, const nw_answer *other, bool *out);

/* Walks the ticket and opens the list of its block and all ancestors from the garbage round on. The list is
   as of the call that gave the ticket, and ascends by round and author. A ticket can be walked any number of
   times, at any time, without a lock. The code is the first of NW_CLOSED, NW_OPEN and NW_OTHER_KIND that
   applies, or else NW_DONE or NW_NO_MEMORY. */
NW_USE int32_t nw_ticket_walk(const nw_answer *ticket, nw_list *out);

/* Writes how many blocks the list has. The code is the first of NW_CLOSED and NW_OTHER_KIND that applies, or
   else NW_DONE. */
NW_USE int32_t nw_list_len(const nw_list *list, size_t *out);

/* Opens a handle of the block at the index, counted from 0. Returns NW_ABSENT if the list has no such block.
   The code is the first of NW_CLOSED, NW_OPEN and NW_OTHER_KIND that applies, or else NW_DONE, NW_ABSENT or
   NW_NO_MEMORY. */
NW_USE int32_t nw_list_block(const nw_list *list, size_t index, nw_block *out);

/* Closes the handle and frees everything that no other handle shares. A closed handle stays closed. */
void nw_free(void *handle);

/* Returns the version of the library: 10,000 times the first number, 100 times the second, and the third.
   NW_VERSION_NUMBER is the version of the header. */
int32_t nw_version(void);

/* Returns NW_ABI, the number of this interface. The number is in the name too, and changes with each change
   of an export, a struct or a code. So a program that calls this function links only with a library of the
   same interface. */
int32_t nw_interface_7(void);

/* Closes the handle, and frees everything that no other handle shares. Does nothing for NULL or a closed handle. */
static inline void nw_committee_free(nw_committee *handle)
{
	if (handle)
		nw_free(handle);
}
static inline void nw_checked_free(nw_checked *handle)
{
	if (handle)
		nw_free(handle);
}
static inline void nw_gather_free(nw_gather *handle)
{
	if (handle)
		nw_free(handle);
}
static inline void nw_answer_free(nw_answer *handle)
{
	if (handle)
		nw_free(handle);
}
static inline void nw_list_free(nw_list *handle)
{
	if (handle)
		nw_free(handle);
}
static inline void nw_block_free(nw_block *handle)
{
	if (handle)
		nw_free(handle);
}
static inline void nw_store_free(nw_store *handle)
{
	if (handle)
		nw_free(handle);
}
static inline void nw_session_free(nw_session *handle)
{
	if (handle)
		nw_free(handle);
}
static inline void nw_settlement_free(nw_settlement *handle)
{
	if (handle)
		nw_free(handle);
}

/* Returns what the code of a function says, or NULL for any other number. The text is constant. */
static inline const char *nw_code_text(int32_t code)
{
	switch (code) {
	case NW_DONE:
		return "Success";
	case NW_NO_MEMORY:
		return "Out of memory";
	case NW_CLOSED:
		return "A handle that must be open is closed";
	case NW_OPEN:
		return "A handle that must be closed is open";
	case NW_OTHER_KIND:
		return "A handle holds a value of another kind than the function takes";
	case NW_BAD_COMMITTEE:
		return "The members do not form a committee";
	case NW_BAD_LIMITS:
		return "A limit is outside its range";
	case NW_OUT_OF_TURN:
		return "The call is out of turn";
	case NW_OTHER_COMMITTEE:
		return "The block or certificate was checked under another committee than the store's";
	case NW_HISTORY_FULL:
		return "The history has reached its limit on events";
	case NW_BAD_ROUND:
		return "A round is not below 2^48";
	case NW_SMALL:
		return "A buffer or an array is too small";
	case NW_ABSENT:
		return "There is nothing at the index, or there is no such value";
	case NW_OVER_LIMIT:
		return "The new block breaks a limit of the format, its parents do not ascend strictly, or its sizes do not add up";
	case NW_NO_MEMBER:
		return "The author or signer is not a member of the committee";
	case NW_OTHER_BLOCK:
		return "The vote is for another digest, round or author";
	case NW_REPEATED:
		return "A vote of the same signer was already counted";
	case NW_BAD_SIGNATURE:
		return "The signature is not the signer's";
	case NW_FEW_VOTES:
		return "The counted votes do not reach the quorum";
	case NW_NOT_COMPARABLE:
		return "The two tickets have different digests or garbage rounds, so their lists cannot be compared";
	case NW_BUSY:
		return "Another thread has the lock of the store";
	case NW_TOO_MANY_SESSIONS:
		return "The store has made as many sessions as its limit allows";
	case NW_OTHER_HISTORY:
		return "The history is no prefix of the history of the session's run";
	case NW_UNSETTLED:
		return "The sessions are not all sessions of one store, in the order of their numbers";
	case NW_ENDED:
		return "The run of the session has ended";
	default:
		return NULL;
	}
}

#ifdef __cplusplus
}
#endif
#endif

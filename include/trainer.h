/* The trainer for programs in C and in languages that call C: target/lib/libtrainer.a and target/lib/libtrainer.so, which ./library writes.
 *
 * Every function is total: whatever it is given, it answers 0 or a number of refusal, and a refused call writes nothing but what its comment
 * says. A slice crosses as a pointer and the number of its elements. The pointers must be valid for that many elements, and what a function
 * writes must not overlap anything else that it is lent; that is all that a caller has to see to.
 *
 * In this order: numbers of refusal; the cache machine; the tape; the drill; the bus; the bus handler; messages between
 * boards; J-Bus interrupts. */
#ifndef TRAINER_H
#define TRAINER_H

#include <stddef.h>
#include <stdint.h>

#ifdef __cplusplus
extern "C" {
#endif

/* ---- Numbers of refusal (document 01, and document 02 as it adds to them) */

enum {
  TRAINER_ACCEPTED = 0,
  TRAINER_WRONG_SIZE = 1,       /* a memory, cache or message store of another size */
  TRAINER_BROKEN_DIRECTORY = 2, /* a directory that breaks a rule */
  TRAINER_NO_UNIT = 3,          /* a processor above 3; a set of processors above 15 */
  TRAINER_BAD_ADDRESS = 4,      /* an address that is no multiple of 4 up to 2,044; a block above 63 */
  TRAINER_CUT = 5,              /* a tape that ends before a number is complete, or a place past its end */
  TRAINER_BAD_NUMBER = 6,       /* a number that is not spelled as it must be */
  TRAINER_UNKNOWN_KIND = 7,     /* a record of kind 7, or of 9 and above; an access of a kind above 2; an address cycle that is no interrupt request */
  TRAINER_FIELD_RANGE = 8,      /* a field out of its range; steal above 1; a list of accesses that ends within one */
  TRAINER_NO_ROOM = 9,          /* a lent space that is too small; a message above TRAINER_MESSAGE bytes; a list above TRAINER_BATCH accesses */
  TRAINER_BAD_STATE = 10,       /* a handler's or a receiver's state out of range */
  TRAINER_OTHER_SOURCE = 11,    /* an operation of another sender or AID than the message's */
  TRAINER_OUT_OF_TURN = 12,     /* an operation that starts a message within another, or goes on with none */
  TRAINER_HALVES_DIFFER = 17    /* an address cycle whose halves differ */
};

/* ---- The cache machine (document 01, and document 02, T-03, T-05, T-08 and T-13) */

/* Processors; slots of each; blocks of memory; bytes of a block; bytes of the memory store, and of the cache store. Block b lies at 32 b in
 * memory; slot s of unit u lies at 512 u + 32 s in the cache store. */
enum { TRAINER_UNITS = 4, TRAINER_SLOTS = 16, TRAINER_BLOCKS = 64, TRAINER_BLOCK = 32, TRAINER_STORE = 2048 };

/* Bytes of the directory:
 *   0 to 127    slot s of unit u stands at 2 (16 u + s): its state, then its block (0 if it is invalid);
 *   128         the kinds: the set of the units that have a write-through board; the other units have copyback boards;
 *   129         1 with steal on, 0 with steal off;
 *   130 to 193  the set of the units that hold block b, which are those that have it in a valid slot, stands at 130 + b.
 * In a set unit 0 has weight 1, unit 1 weight 2, unit 2 weight 4, unit 3 weight 8. A call keeps bytes 128 and 129, and leaves the sets of holders
 * true. Bytes that do not stand for a directory that keeps the rules are refused with TRAINER_BROKEN_DIRECTORY, and so are a set above 15, a
 * write-through unit with a modified slot, steal above 1, a set of holders that differs from the slots, and another number of bytes. */
enum { TRAINER_DIRECTORY = 194 };

/* The states of a slot: invalid (I), shared and unmodified (SU), exclusive and modified (EM). A slot of a write-through unit is never EM. */
enum { TRAINER_INVALID = 0, TRAINER_SHARED = 1, TRAINER_MODIFIED = 2 };

/* The commands of an order. A memory write is the store of a write-through unit. */
enum { TRAINER_READ = 0, TRAINER_MODIFIED_READ = 1, TRAINER_INVALIDATE = 2, TRAINER_COPYBACK = 3, TRAINER_MEMORY_WRITE = 4 };

/* Numbers in the answer of a call: the loaded value (0 for a store and a flush), how many orders were given, and from TRAINER_FIRST_ORDER on
 * TRAINER_ORDERS orders of TRAINER_ORDER numbers: unit, command, block, retried (0 or 1). Only a read, a modified read and a memory write are
 * retried, when another unit has the block EM; that unit's copyback follows, and then the same order again. With steal on a read and a modified
 * read are not given again: the asker takes the block during the copyback. Orders that were not given are 0. */
enum { TRAINER_ANSWER = 18, TRAINER_VALUE = 0, TRAINER_COUNT = 1, TRAINER_FIRST_ORDER = 2, TRAINER_ORDERS = 4, TRAINER_ORDER = 4 };

/* The stores that trainer_peek names. */
enum { TRAINER_IN_MEMORY = 0, TRAINER_IN_CACHE = 1 };

/* Starts cold: every byte of the cache store becomes 0, and the first TRAINER_DIRECTORY bytes of the directory's space a directory that is all
 * invalid, with all sets of holders empty. write_through is the set of the units that have a write-through board, in the weights of byte 128;
 * steal is on (1) or off (0). Refusals: 9 if the directory's space is below TRAINER_DIRECTORY bytes; then 3 (a set above 15: it names a unit
 * above 3); then 8 (steal above 1); then 1, and the directory becomes all invalid with the chosen kinds and steal all the same. */
uint32_t trainer_cold_start(const uint8_t *memory, size_t memory_size,
                            uint8_t *cache, size_t cache_size,
                            uint32_t write_through, uint32_t steal,
                            uint8_t *directory, size_t directory_size);

/* Unit loads the word at address. Refusals: 9 if the answer's space is below TRAINER_ANSWER numbers; then 1, 2, 3, 4. */
uint32_t trainer_load(uint8_t *directory, size_t directory_size,
                      uint8_t *memory, size_t memory_size,
                      uint8_t *cache, size_t cache_size,
                      uint32_t unit, uint32_t address,
                      uint32_t *answer, size_t answer_size);

/* Unit stores value at address. A copyback unit's word goes into its slot in the cache store only. A write-through unit's goes into memory, and
 * into its slot in the cache store too if it holds the block; if it does not, none of its slots changes. Refusals as for a load. */
uint32_t trainer_store(uint8_t *directory, size_t directory_size,
                       uint8_t *memory, size_t memory_size,
                       uint8_t *cache, size_t cache_size,
                       uint32_t unit, uint32_t address, uint32_t value,
                       uint32_t *answer, size_t answer_size);

/* Unit flushes block. The cache store is read only. Refusals as for a load. */
uint32_t trainer_flush(uint8_t *directory, size_t directory_size,
                       uint8_t *memory, size_t memory_size,
                       const uint8_t *cache, size_t cache_size,
                       uint32_t unit, uint32_t block,
                       uint32_t *answer, size_t answer_size);

/* The most accesses of a list. */
#define TRAINER_BATCH 65536

/* Numbers of an access: its kind, TRAINER_KIND_LOAD, TRAINER_KIND_STORE or TRAINER_KIND_FLUSH; unit; address, or block of a flush; value, which is
 * looked at for a store only. */
enum { TRAINER_ACCESS = 4 };

/* Makes the accesses of a list in order, each as its own call above would, up to the first that is refused. accesses_size counts numbers:
 * TRAINER_ACCESS for each access. *index becomes how many accesses were made, which is the index of the refused one, counted from 0, or the list's
 * length if all were accepted; *orders becomes how many orders these gave together. values[k] becomes the loaded value if access k is a load that
 * was made, 0 if it is a store or a flush that was made; the values from *index on stay.
 * Refusals of the whole list, at index 0: 9 if it has more than TRAINER_BATCH accesses or more than values_size; then 8 if accesses_size is no
 * multiple of TRAINER_ACCESS. Then those of each access: 7 (a kind above 2); then 1, 2, 3, 4. The refused access changes nothing and gives no
 * order; those before it stay made. *index and *orders are written in any case. An empty list is accepted, whatever else is lent. */
uint32_t trainer_batch(uint8_t *directory, size_t directory_size,
                       uint8_t *memory, size_t memory_size,
                       uint8_t *cache, size_t cache_size,
                       const uint32_t *accesses, size_t accesses_size,
                       uint32_t *values, size_t values_size,
                       uint32_t *index, uint32_t *orders);

/* Where the newest TRAINER_BLOCK bytes of block lie: *store is TRAINER_IN_MEMORY or TRAINER_IN_CACHE, *offset the place of the first byte in that
 * store. Refusals: 1, 2, 4. */
uint32_t trainer_peek(const uint8_t *directory, size_t directory_size,
                      const uint8_t *memory, size_t memory_size,
                      const uint8_t *cache, size_t cache_size,
                      uint32_t block,
                      uint32_t *store, uint32_t *offset);

/* Who holds block: *set is the set of the units that hold it, in the weights of the directory's sets, *count how many they are, 0 to
 * TRAINER_UNITS. Refusals: 2, 4. */
uint32_t trainer_holders(const uint8_t *directory, size_t directory_size,
                         uint32_t block,
                         uint32_t *set, uint32_t *count);

/* ---- The tape */

/* The kinds of a record, with their fields; there is no kind 7. The cycles of a stamp are any 64-bit number; in every other field a number above
 * 2^32 - 1 is refused with TRAINER_FIELD_RANGE. */
enum {
  TRAINER_KIND_LOAD = 0,     /* unit, address */
  TRAINER_KIND_STORE = 1,    /* unit, address, value */
  TRAINER_KIND_FLUSH = 2,    /* unit, block */
  TRAINER_KIND_ORDER = 3,    /* unit, command, block, retried (0 for an invalidate and a copyback) */
  TRAINER_KIND_ANSWER = 4,   /* from, to, AID, code */
  TRAINER_KIND_REGISTER = 5, /* from, to, AID, write, RA, BCT */
  TRAINER_KIND_LOADED = 6,   /* unit, value */
  TRAINER_KIND_STAMP = 8     /* cycles */
};

/* Numbers of a record: its kind, and its fields in the order above. Numbers behind the last field are 0 when a record is read, and ignored
 * when it is written. */
enum { TRAINER_RECORD = 7 };

/* Reads the record at place: *next becomes the place after it, which is always past place. At the end of the tape, which is no refusal, *next
 * becomes place itself and no number is written; a refusal makes it the place where the refused number starts. Refusals: 9 if the numbers'
 * space is below TRAINER_RECORD, and then *next stays too; then 5, 6, 7, 8. */
uint32_t trainer_read_record(const uint8_t *tape, size_t tape_size,
                             size_t place, size_t *next,
                             uint64_t *numbers, size_t numbers_size);

/* How many bytes a record takes on the tape: *size becomes the size of the smallest space that trainer_write_record accepts for it. Refusals: 8 if
 * there are not TRAINER_RECORD numbers; then 7 (kind 7, or 9 and above), 8. Refused, *size stays. */
uint32_t trainer_record_size(const uint64_t *numbers, size_t numbers_size,
                             size_t *size);

/* Writes a record into the first bytes of the space; *written becomes how many. Refusals: 8 if there are not TRAINER_RECORD numbers;
 * then 7 (kind 7, or 9 and above), 8, 9. */
uint32_t trainer_write_record(const uint64_t *numbers, size_t numbers_size,
                              uint8_t *space, size_t space_size,
                              size_t *written);

/* ---- The drill */

/* The longest tape that the drill runs, and bytes of text that are enough for the drill of any tape. */
#define TRAINER_TAPE 65536
#define TRAINER_TEXT 720960

/* The drill program on a tape: its output goes into the first bytes of the text; *written becomes how many. Refusals: 9 if the text is
 * too small for the whole output. */
uint32_t trainer_drill(const uint8_t *tape, size_t tape_size,
                       uint8_t *text, size_t text_size,
                       size_t *written);

/* ---- The bus: parity, lanes, signals, answer codes */

/* The eight parity bits of a word: byte 0, the most significant, has weight 1, byte 7 weight 128. Nothing is refused: this is the set itself. */
uint32_t trainer_parity(uint64_t word);

/* The bytes of a word that are wrong beside a set of parity bits: *wrong is their set in the same weights, *count how many they are.
 * Refusal: 8 (a set above 255). */
uint32_t trainer_check(uint64_t word, uint32_t set, uint32_t *wrong, uint32_t *count);

/* The byte lanes of a register access: *words is 1 or 2, *positions a set of 16 bits, position 0 of the first word having weight 1. Refusal: 8
 * (BCT above 7). */
uint32_t trainer_lanes(uint32_t ra, uint32_t bct, uint32_t *words, uint32_t *positions);

/* The most cycles of a transfer. */
enum { TRAINER_CYCLES = 64 };

/* The levels in a cycle, 1 to cycles, of a transfer of that many cycles, 1 to TRAINER_CYCLES, locked (1) or not (0): BS, BUR and ET in that
 * cycle, and ET at the request; 1 is asserted. Refusal: 8 (a number out of these). */
uint32_t trainer_plan(uint32_t cycles, uint32_t cycle, uint32_t locked,
                      uint32_t *bs, uint32_t *bur, uint32_t *et, uint32_t *et_at_request);

/* The classes of an answer code. */
enum {
  TRAINER_CLASS_NO_ERROR = 0,
  TRAINER_CLASS_NO_ERROR_LOCK = 1,
  TRAINER_CLASS_RESERVED_NO_ERROR = 2, /* carries the code */
  TRAINER_CLASS_USER_NO_ERROR = 3,     /* carries the code less 64 */
  TRAINER_CLASS_HARDWARE_ERROR = 4,
  TRAINER_CLASS_ILLEGAL_COMMAND = 5,
  TRAINER_CLASS_BUS_SEQUENCE_ERROR = 6,
  TRAINER_CLASS_RESERVED_ERROR = 7, /* carries the code */
  TRAINER_CLASS_USER_ERROR = 8      /* carries the code less 192 */
};

/* The class of an answer code, the number that it carries (0 for none), and whether the asker reports a bus error (0 or 1). Refusal: 8 (a code above
 * 255). */
uint32_t trainer_class(uint32_t code, uint32_t *class_number, uint32_t *carried, uint32_t *error);

/* The code of a class with the number that it carries. Refusal: 8 (no such class, or a carried number that is not one of its row; 0 where it carries
 * none). */
uint32_t trainer_code(uint32_t class_number, uint32_t carried, uint32_t *code);

/* ---- The bus handler */

/* The units of the bus, which a handler grants. */
enum { TRAINER_BUS_UNITS = 8 };

/* Numbers of a handler's state: last high unit, last low unit, and the lock's owner, TRAINER_NO_OWNER for none. Numbers that do not stand for a
 * state this way are refused with TRAINER_BAD_STATE. */
enum { TRAINER_HANDLER = 3, TRAINER_NO_OWNER = 8 };

/* How a unit was granted. */
enum { TRAINER_GRANT_NOBODY = 0, TRAINER_GRANT_HIGH = 1, TRAINER_GRANT_LOW = 2 };

/* The state of a handler that has granted nothing yet, into the first TRAINER_HANDLER numbers. Refusal: 9 if the space is below that. */
uint32_t trainer_handler(uint32_t *state, size_t state_size);

/* One call of the handler: the units that ask by RQH and by RQL, as sets in which unit u has weight 2 to the power u, and LCK asserted (1) or not (0).
 * *grant tells how a unit was granted, *unit which (0 for nobody), and the state becomes the one for the next call. Refusals: 9 if the state's
 * space is below TRAINER_HANDLER; then 8 (LCK above 1), 10 (a set above 255 too). */
uint32_t trainer_arbitrate(uint32_t *state, size_t state_size,
                           uint32_t high, uint32_t low, uint32_t lck,
                           uint32_t *grant, uint32_t *unit);

/* ---- Messages between boards (document 02, T-01) */

/* Bytes of the store that a message is put together in, which are the most that a message has; the most bytes of an operation. */
enum { TRAINER_MESSAGE = 4096, TRAINER_OPERATION = 256 };

/* Numbers of a receiver: its state; then sender, AID and byte count of the message that is being received, all 0 if it is idle. Numbers that do
 * not stand for a receiver this way are refused with TRAINER_BAD_STATE. */
enum { TRAINER_RECEIVER = 4 };
enum { TRAINER_IDLE = 0, TRAINER_PENDING = 1 };

/* Numbers of a completion: 1, sender, AID and length if the operation completed its message, else 0, 0, 0, 0. */
enum { TRAINER_COMPLETION = 4 };

/* The sequences of an operation. */
enum { TRAINER_SINGLE = 0, TRAINER_FIRST = 1, TRAINER_MIDDLE = 2, TRAINER_LAST = 3 };

/* Gives an operation to a receiver: sequence, sender, AID and bytes. The bytes go into the store, the first TRAINER_RECEIVER numbers become the
 * receiver after the operation, and the first TRAINER_COMPLETION numbers what it completed. Refusals: 9 if the receiver's or the completion's
 * space is too small; then 1, 10, 8 (a sequence above 3 too), 12, 11, 9. */
uint32_t trainer_receive(uint64_t *receiver, size_t receiver_size,
                         uint8_t *store, size_t store_size,
                         uint32_t sequence, uint32_t sender, uint32_t aid,
                         const uint8_t *bytes, size_t bytes_size,
                         uint64_t *completion, size_t completion_size);

/* How many operations a message makes: *operations. Refusals: 8, 9. */
uint32_t trainer_divide(const uint8_t *message, size_t message_size,
                        uint32_t sender, uint32_t aid,
                        size_t *operations);

/* Operation index of a message, counted from 0: *sequence as above, *offset the place of its first byte in the message, *length how many
 * bytes it has. All three are 0 past the last operation, which is no refusal; the length of any other is above 0. Refusals as for
 * trainer_divide. */
uint32_t trainer_operation(const uint8_t *message, size_t message_size,
                           uint32_t sender, uint32_t aid, size_t index,
                           uint32_t *sequence, size_t *offset, size_t *length);

/* ---- Interrupts on the neighbour bench's J-Bus (document 02, T-14) */

/* What an agent ID's low four bits name. */
enum {
  TRAINER_DEVICE_PROCESSOR = 0,
  TRAINER_DEVICE_NOT_SUPPORTED = 1,
  TRAINER_DEVICE_ILLEGAL = 2,
  TRAINER_DEVICE_BRIDGE_0 = 3,
  TRAINER_DEVICE_BRIDGE_1 = 4
};

/* Reads the address cycle of an interrupt: J_AD[127:64] and J_AD[63:0]. *target is the target thread, *agent the source's agent ID, both up
 * to 31, and *device one of the numbers above. Refusals: 17, 7 (bits 47-43 are not 0x14), 8 (bits 42-41 or 30-0 are not zero). Bits 63-48 are
 * ignored where they are equal in both halves. */
uint32_t trainer_read_interrupt(uint64_t upper, uint64_t lower,
                                uint32_t *target, uint32_t *agent, uint32_t *device);

/* Writes the address cycle of an interrupt to a target thread from an agent: two equal halves, bits 63-48 zero. Refusal: 8 (a number above
 * 31). */
uint32_t trainer_write_interrupt(uint32_t target, uint32_t agent,
                                 uint64_t *upper, uint64_t *lower);

#ifdef __cplusplus
}
#endif

#endif

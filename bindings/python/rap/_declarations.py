# Written by bindings/python/declarations from include/rap.h: an edit here is lost.
"""What the library declares."""

# The version of the interface: the first number must be that of the library, and the second not above.
VERSION = (1, 2)

DECLARATIONS = '''
struct rap_step {
    uint32_t what;
    uint32_t kind;
    size_t at;
    size_t start;
    size_t end;
};
struct rap_answer {
    uint32_t status;
    size_t steps;
    size_t message_bytes;
    size_t used;
};
struct rap_element {
    uint32_t kind;
    uint32_t start;
    uint32_t end;
    uint32_t after;
    uint32_t parent;
};
struct rap_message {
    size_t at;
    size_t start;
    size_t end;
    size_t text_start;
    size_t text_end;
};
struct rap_nodes_answer {
    uint32_t status;
    size_t elements;
    size_t messages;
    size_t message_bytes;
    size_t used;
};
struct rap_place {
    uint32_t kind;
    uint32_t is_token;
    size_t start;
    size_t end;
};
struct rap_core_answer {
    uint32_t status;
    uint32_t derived;
    size_t places;
    size_t used;
};
struct rap_string {
    uint32_t status;
    size_t bytes;
};
struct rap_number {
    uint32_t status;
    uint32_t radix;
    uint64_t low;
    uint64_t high;
    double real;
    size_t suffix;
};
enum rap_what {
    RAP_ENTER = 0,
    RAP_EXIT = 1,
    RAP_TOKEN = 2,
    RAP_MESSAGE = 3,
    RAP_SPLIT = 4
};
enum rap_status {
    RAP_OK = 0,
    RAP_NO_TREE = 1,
    RAP_NO_EDITION = 2,
    RAP_NO_ENTRY = 3,
    RAP_NOT_UTF8 = 4,
    RAP_TEXT_TOO_LONG = 5,
    RAP_TOO_MANY_TOKENS = 6,
    RAP_NO_MEMORY = 7,
    RAP_NO_NODE = 8,
    RAP_NO_BRACE = 9,
    RAP_NO_RECORD = 10,
    RAP_NO_STEPS = 11,
    RAP_NO_SCRIPT = 12,
    RAP_NO_LITERAL = 13,
    RAP_NO_NUMBER = 14
};
struct rap_nodes_answer rap_nodes(const uint8_t *text, size_t text_length, uint32_t edition, uint32_t entry,
                                  struct rap_element *elements, size_t element_room,
                                  struct rap_message *messages, size_t message_room,
                                  uint8_t *message_bytes, size_t byte_room);
struct rap_core_answer rap_core(const uint8_t *text, size_t text_length, uint32_t edition,
                                struct rap_place *places, size_t place_room);
struct rap_answer rap_tokens(const uint8_t *text, size_t text_length, uint32_t edition,
                             struct rap_step *steps, size_t step_room, uint8_t *messages, size_t message_room);
struct rap_string rap_string_value(const uint8_t *text, size_t text_length, uint32_t kind,
                                   uint8_t *value, size_t value_room);
struct rap_number rap_number_value(const uint8_t *text, size_t text_length, uint32_t kind);
size_t rap_status_text(uint32_t status, uint8_t *text, size_t text_room);
uint32_t rap_version(void);
'''

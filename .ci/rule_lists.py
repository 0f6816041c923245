"""What .ci/rules reads beside the crates."""

# A definition of specs/ is one of a fault where its result is one of these types.
FAULT_RESULTS = {
    "Verdict",
    "Option Code",
    "Option BlockFault",
    "Option Unwritable",
    "Option Refusal",
    "Option BadConfig",
    "List (Bool × Refusal)",
    "Option Malformed",
    "List (Bool × Malformed)",
    "Code",
    "BlockError",
    "Failure",
}

# Relations, and other definitions, that say what a fault is, by their files below crates/.
FAULTS = {
    "h2_frame/specs/Frames.antt": "pads_too_much Refuses",
    "h2_frame/specs/Encoding.antt": "IsRefused",
    "h2_wire/specs/Streams.antt": "IsWrongPreface IsWrongHead IsWrongPayload EndsWithFault WireFaultAt",
    "h2_block/specs/Grouping.antt": "GroupingFaultAt",
    "hpack_text/specs/Integers.antt": "IntFault IsTruncated IsTooLong",
    "hpack_text/specs/Huffman.antt": "HuffFault HasEndSymbol HasBadPadding",
    "hpack_text/specs/Strings.antt": "StrFault IsShort",
    "hpack/specs/Lists.antt": "DecodeFault NoBlock",
    "h2_message/specs/Reading.antt": "IsDeclared AreSoundTrailers AreSoundInterims IsWellRead "
    "message_parts IsReadable",
    "h2_spec_log/specs/Allowed.antt": "Allowed",
    "h2_show/specs/Blocks.antt": "IsMisgrouped IsUndecodable EndsWithBlockError",
    "h2_cli/specs/Hexadecimal.antt": "IsBadHex",
    "h2_show/specs/Report.antt": "EndsInsideFrame EndsInsideBlock HasWireFaultAt HasBlockErrorAt IsAtFault",
    "h2_cli/specs/Status.antt": "failure_status",
    "h2_follow/specs/FollowText.antt": "IsRefusedLine HasBadLine",
}
FAULT_DEFINITIONS = {(file, name) for file, names in FAULTS.items() for name in names.split()}

# Files whose definitions of faults say one of h2_spec_log again: those of the machine, whose decisions are those of
# h2_spec_log.
EXEMPT = {"h2_spec_machine/specs/End.antt", "h2_spec_machine/specs/Machine.antt"}

# Crates of tests and cases, whose calls are no use of a function.
TESTS = {"h2_cases", "h2_case", "h2_case_conn", "h2_case_ends", "h2_case_server", "h2_test_layers", "h2_test_ends",
         "h2_test_scarce", "h2_test_host", "h2_test_tool"}
TESTS |= {"h2_measure", "h2_uses"}

# Crates whose functions C calls, and how the names of those begin.
EXPORTS = {"belkjoef": "bj_"}

# Functions that the language calls, or a macro of a library.
BY_NAME = {"main", "fmt", "from", "drop", "clone", "eq", "next", "debug", "display"}

# Public functions whose callers are users alone, and why no crate calls them.
WINDOWS = "an end keeps windows as differences from the initial one (docs/DECISIONS.md); for users that keep one of their own"
JOINED = "users join two ends, which no end does"
LINK = "a link in memory is for users' tests"
WHY = "the program asks why a connection has failed; for users that don't"
TEXTS = "hpack reads into a text that it has, with the function that appends"
SERVE = "the program's host has many connections; for users that serve one over a link (README)"
HEARD = "the program asks for the parts of a response; for users whose handler hears them"
FETCHED = "the program gathers a response itself, in a wider window; for users that fetch a location in one call"
API = {
    "h2_receive::fetch_handler": HEARD,
    "h2_receive::hear_all": HEARD,
    "h2_receive::receive": HEARD,
    "h2_net::address_of": FETCHED,
    "h2_net::fetch_location": FETCHED,
    "h2_frame::FrameRef::payload_len": "an end counts the payload of DATA alone; for users that count any frame",
    "h2_engines::serve_link": WHY,
    "h2_fetch::ClientConnection::give_up": "h2 get asks for each response to its end",
    "h2_flow::Config::with_max_frame": "a program with larger frames configures its ends so",
    "h2_flow::StreamState::closed": "an end asks for both sides at once",
    "h2_flow::StreamState::end_in": "an end sets the side with the rest of its stream",
    "h2_flow::StreamState::end_out": "an end sets the side with the rest of its stream",
    "h2_flow::Window::give": WINDOWS,
    "h2_flow::Window::new": WINDOWS,
    "h2_flow::Window::shift": WINDOWS,
    "h2_flow::Window::take": WINDOWS,
    "h2_flow::Window::value": WINDOWS,
    "h2_serve::drive": SERVE,
    "h2_serve::end_for": SERVE,
    "h2_serve::send_all": SERVE,
    "h2_serve::serve_handler": SERVE,
    "h2_serve::take_all": SERVE,
    "h2_server::Exchanges::hear": "in take_some, for drivers of a server with a handler",
    "h2_server::Exchanges::ask_on": "in send_some, for drivers of a server with a handler",
    "h2_host::Host::run": "for tests of a driver, which makes steps one by one",
    "h2_server::FloodBudget::above": "for drivers of a host, which count what a peer sends",
    "h2_server::Deadlines::overdue": "for drivers of a host, which have a clock",
    "h2_joined::Joined::quiet": JOINED,
    "h2_joined::run": JOINED,
    "h2_link::MemoryLink::failing_after": LINK,
    "h2_link::MemoryLink::fails": LINK,
    "h2_link::MemoryLink::with_most": LINK,
    "h2_message::Reading::is_over": "an end knows from its stream's state that a message is over",
    "h2_message::names_user": "a server that minds asks, before it answers with status 400",
    "h2_replay::replay": "users replay a list of acts; the program hands out events as they come",
    "h2_settle::settle": JOINED,
    "hpack_text::huff_read": TEXTS,
    "hpack_text::read_string": TEXTS,
    "h2_message::list_asks_head": "a server that answers HEAD asks, as those of h2_uses do",
    "hpack::Encoder::encode": "an end has summed the list already",
    "h2_net::get_location": "for programs that get a URL; h2 get makes its request by its words",
    "h2_net::get_over": "the same over any link",
    "h2_net::print_response": "what h2 get prints without words, for programs that get a URL",
}

# The sections that rules have, with their titles: of RFC 9113, of RFC 7541 as "HPACK ..", of RFC 9110 as "HTTP ..", and
# what is our own and near no section.
SECTIONS = {
    "3.4": "HTTP/2 Connection Preface",
    "4.1": "Frame Format",
    "4.2": "Frame Size",
    "4.3": "Field Section Compression and Decompression",
    "4.3.1": "Compression State",
    "5.1": "Stream States",
    "5.1.1": "Stream Identifiers",
    "5.1.2": "Stream Concurrency",
    "5.4": "Error Handling",
    "5.4.1": "Connection Error Handling",
    "5.4.2": "Stream Error Handling",
    "5.5": "Extending HTTP/2",
    "6": "Frame Definitions",
    "6.1": "DATA",
    "6.2": "HEADERS",
    "6.3": "PRIORITY",
    "6.4": "RST_STREAM",
    "6.5": "SETTINGS",
    "6.5.1": "SETTINGS Format",
    "6.5.2": "Defined Settings",
    "6.5.3": "Settings Synchronization",
    "6.6": "PUSH_PROMISE",
    "6.7": "PING",
    "6.8": "GOAWAY",
    "6.9": "WINDOW_UPDATE",
    "6.9.1": "The Flow-Control Window",
    "6.9.2": "Initial Flow-Control Window Size",
    "6.9.3": "Reducing the Stream Window Size",
    "6.10": "CONTINUATION",
    "7": "Error Codes",
    "8.1": "HTTP Message Framing",
    "8.1.1": "Malformed Messages",
    "8.2.1": "Field Validity",
    "8.2.2": "Connection-Specific Header Fields",
    "8.3": "HTTP Control Data",
    "8.3.1": "Request Pseudo-Header Fields",
    "8.3.2": "Response Pseudo-Header Fields",
    "8.6": "The Upgrade Header Field",
    "10.5": "Denial-of-Service Considerations",
    "10.5.1": "Limits on Field Block Size",
    "HTTP 5.3": "Field Order (RFC 9110)",
    "HTTP 8.8.3": "ETag (RFC 9110)",
    "HTTP 8.8.2.1": "Generation of Last-Modified (RFC 9110)",
    "HTTP 9.3.2": "HEAD (RFC 9110)",
    "HTTP 13.2.2": "Precedence of Preconditions (RFC 9110)",
    "HTTP 14.2": "Range (RFC 9110)",
    "HTTP 14.4": "Content-Range (RFC 9110)",
    "HTTP 15.5.6": "405 Method Not Allowed (RFC 9110)",
    "HTTP 15.5.14": "413 Content Too Large (RFC 9110)",
    "HPACK 2.1": "Header List Ordering (RFC 7541)",
    "HPACK 2.3.2": "Dynamic Table (RFC 7541)",
    "HPACK 2.3.3": "Index Address Space (RFC 7541)",
    "HPACK 3.1": "Header Block Processing (RFC 7541)",
    "HPACK 3.2": "Header Field Representation Processing (RFC 7541)",
    "HPACK 4.1": "Calculating Table Size (RFC 7541)",
    "HPACK 4.2": "Maximum Table Size (RFC 7541)",
    "HPACK 4.4": "Entry Eviction When Adding New Entries (RFC 7541)",
    "HPACK 5.1": "Integer Representation (RFC 7541)",
    "HPACK 5.2": "String Literal Representation (RFC 7541)",
    "HPACK 6.1": "Indexed Header Field Representation (RFC 7541)",
    "HPACK 6.2": "Literal Header Field Representation (RFC 7541)",
    "HPACK 6.2.1": "Literal Header Field with Incremental Indexing (RFC 7541)",
    "HPACK 6.2.2": "Literal Header Field without Indexing (RFC 7541)",
    "HPACK 6.2.3": "Literal Header Field Never Indexed (RFC 7541)",
    "HPACK 6.3": "Dynamic Table Size Update (RFC 7541)",
    "HPACK A": "Static Table Definition (RFC 7541)",
    "HPACK B": "Huffman Code (RFC 7541)",
    "calls": "Calls and configuration of an end",
    "joined": "Two joined ends",
    "links": "Links",
    "engines": "Connections over links, and the program's h2 serve, get and loop",
    "files": "Files of a folder",
    "hosts": "Many connections: a host, times and budgets",
    "handlers": "Handlers of requests, and a server that they answer for",
    "show": "The program's h2 show",
    "follow": "The program's h2 show --follow",
    "sides": "The program's h2 show --client FILE --server FILE",
    "page": "Both sides of a connection as a page",
    "replay": "A replay, and the program's h2 replay",
    "messages": "The program's h2 replay --messages",
    "c": "The functions for programs in C",
}

# Where the profile chose against a sentence of an RFC, by section and sentence of the rule: the sentence, and why.
CONFLICTS = {
    "10.5 A block of more than 65,552 octets is ENHANCE_YOUR_CALM": "9113, 4.3: an endpoint that does not decompress a "
    "field block MUST end the connection with COMPRESSION_ERROR. Such a block is not kept, so it cannot be decompressed; "
    "the code says why, as 10.5 lets an endpoint do.",
    "HPACK 4.2 A block without the update that a lower limit asks for is a fault": "7541, 4.2: where a limit fell and rose "
    "between two blocks, the lowest MUST be signalled too. A block is held against the limit in force alone, so a peer "
    "that leaves the lower update out is not at fault; nor is one that sends more updates than two.",
    "5.1 On a closed stream a field block is PROTOCOL_ERROR": "9113, 5.1: a frame after both ends are closed MAY be "
    "STREAM_CLOSED; 5.1.1: a lower number MUST be PROTOCOL_ERROR. Of a stream that is over nothing is kept, so both are the "
    "same here.",
    "5.1 On a closed stream DATA is STREAM_CLOSED (its scope: own)": "9113, 6.1: a stream error. 5.1 allows the connection "
    "error, and nothing is kept of a stream that is over.",
    "6.9 WINDOW_UPDATE on a closed stream is ignored": "9113, 6.9: an increment of 0 MUST be a stream error, on a closed "
    "stream too. There is no stream left to reset, and RST_STREAM on a closed one is forbidden (5.1).",
    "6.3 PRIORITY has five octets (a connection error: own)": "9113, 6.3: a stream error. 5.4.1 lets an endpoint end the "
    "connection, and a head is checked before its stream is looked up.",
    "8.3.1 A method that is no token, or is CONNECT (own), breaks M7": "9113, 8.5: CONNECT is well-formed. There are no "
    "tunnels here, so a client sees RST_STREAM with PROTOCOL_ERROR and no status 405 or 501.",
    "8.1.1 No length is compared in an answer to HEAD, in 204 and in 304": "9110, 6.4.1: these have no content. DATA that "
    "comes all the same is handed out, as a part of the stream: whoever asked with HEAD ignores it.",
    "8.3.1 An :authority with an @ in it names a user, and a call says so": "9113, 8.3.1: `:authority` MUST NOT have a user "
    "part for http and https. It is not refused: `names_user` says so, and a server that minds answers 400.",
    "8.2.2 te with another value than trailers breaks M10": "9113, 8.2.2: `te` stands in requests alone. `te: trailers` is "
    "let through in responses and trailers too, where it says nothing.",
    "8.1.1 A content-length that is no number, or several, breaks M11": "9110, 8.6: a list of equal numbers may be taken for "
    "one, or refused. It is refused, and so is a number of more than 19 digits.",
    "8.3.2 A status that is not three digits from 100 on breaks M9": "9110, 15: statuses from 600 on are invalid. They are "
    "handed out: what a status means is the caller's.",
    "6.8 Own streams above GOAWAY's last are reported as unprocessed": "9113, 6.8: frames on such streams may still come, and "
    "are to be ignored. A stream that was reported is over here, so HEADERS or DATA on it end the connection.",
    "6.8 An own GOAWAY is sent once, with the greatest stream processed": "9113, 6.8: a server SHOULD send 2^31-1 first and "
    "the real number later. One GOAWAY is sent, so requests under way are not processed, and a client is told so.",
    "6.5.3 An acknowledgment that is awaited is reported, others are ignored": "The RFC does not say what an acknowledgment "
    "means that nobody awaits. It changes nothing.",
    "5.1.2 A client has at most as many active streams as the server allows": "9113, 5.1.2: before SETTINGS there is no "
    "limit. A client opens 100 until these have come, and never more than 1,000.",
    "10.5 An end that resets 1,001 streams ends with ENHANCE_YOUR_CALM": "9113, 10.5: an endpoint SHOULD limit what costs "
    "it work. Streams that the peer opens and resets, empty CONTINUATION frames and interim responses are not limited: each "
    "costs a frame and leaves nothing behind.",
}

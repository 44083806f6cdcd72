//! What `--help` prints.

pub const PROGRAM: &str = "\
intake: model sections of MikuMikuDance projects (PMM), and the strips made from them

  intake list FILE             the keys of a section's strip, one line each; with --strip, of a stored strip
  intake strip FILE -o OUT     the strip of a section
  intake compare A B           whether two strips agree, or the first place where they do not
  intake reference FILE LIST   which reference of a list has a section's path
  intake SUBCOMMAND --help     more of one of them

FILE holds one model section at its start, or at --start N; with --model N it is a whole PMMv2 project, and its
model N is taken, counted from 0. A project given with neither is not read as a section. A file called - is
standard input or output. Sections, strips and lists may have up to 16,777,215 bytes.

Every subcommand takes --json, and then reports with one line of JSON: an object of result, status and what the
subcommand's help names. A run that ends with status 2 gives result \"usage\", status, words; with 4 result \"file\"
or with 6 result \"project\", both with status, file, words.

Exit statuses:
  0  done; the strips agree; the list has the path
  1  the strips differ; the list does not have the path
  2  the arguments are not understood, or the strip would take the place of its section
  3  the library refused the section, its path, the list, or the strip to be listed; the number is that of
     document 01, or of 02 from 21 on
  4  a file cannot be read or written, or the report cannot be printed; if that is because its reader has closed
     the pipe, there is no message
  5  a strip to be compared is malformed: the library refused it; or a line of a list is
  6  a project, given without --model or --start; or not a PMMv2 project, or it has no model of that number

The section is read, its strip built, strips are read and paths looked up by the proved library. This program itself
reads files, walks a project's sections, compares what the library reads of two strips, reads lists from lines, and
prints.
";

pub const LIST: &str = "\
intake list FILE [--start N | --model N] [--json]: the keys of a section's strip
intake list --strip FILE [--json]: the keys of a stored strip

  model BONES MORPHS END     how many tracks of each, and the offset in the file at which the section ends
  strip BONES MORPHS LENGTH  in its place for a stored strip: how many tracks of each, and how many bytes it has
  bone TRACK FRAME MAP       a key of a bone track, in the order of its chain; the first is the initial one
  morph TRACK FRAME MAP      a key of a morph track
  keys COUNT loose COUNT     how many keys there are, and records that no track reaches
  keys COUNT                 in its place for a stored strip, which tells of no such records

MAP says which fields of the key are not plain. A bone's translation counts 1, its orientation 2, its movement
curves 4, its rotation curve 8; a morph's weight counts 1. A section or a strip that is refused gives the line
`refused N`, the reason on standard error (of a section with its place) and the exit status 3.

  FILE         a file that holds the section, or the strip and nothing else; - for standard input
  --strip      FILE is a stored strip, as `intake strip` writes it
  --start N    the section begins at this offset of FILE (0 if not given, and then FILE must not be a project);
               FILE has at most 16,777,215 bytes in all
  --model N    FILE is a PMMv2 project; its model N, from 0, whose section has at most 16,777,215 bytes
  --json       one object: result \"listed\", status, bones, morphs, end, keys, key_count, loose; or result
               \"refused\", status, file, model, number, kind, values, words; of a stored strip length in place of
               end, no loose, and in a refusal model and kind null and no values. Each of keys: kind, track, frame,
               map; of a bone translation (3 numbers), orientation (4) and curves (x, y, z and rotation, 4 numbers
               each); of a morph weight. A plain field has its plain value: 0, orientation 0, 0, 0, 1, a curve 20,
               20, 107, 107. Floats are in the shortest digits that read as the same float of 32 bits

  intake list dance.section
  intake list project.pmm --model 0
  intake list --strip dance.strip
";

pub const STRIP: &str = "\
intake strip FILE -o OUT [--start N | --model N] [--json]: the strip of a section

Writes the strip to OUT and tells its length, how many links its chains follow (reached) and how many records
no chain reaches (loose). Where the section is refused or the strip cannot be written, OUT is left as it was:
the strip is written to a new file beside OUT, which takes OUT's place, with its permissions, once it is whole.
A run that is killed meanwhile leaves that file, called .intake- and numbers. What is no regular file, as a pipe,
is written directly, and a standard output that is closed keeps nothing. FILE and OUT must not be the same file,
by whatever names, links or redirections. An OUT whose name begins with - is given as ./-name.

  FILE         a file that holds the section; - for standard input
  -o OUT       the strip's file, also --output OUT; - for standard output, and then the report is on standard error
  --start N    the section begins at this offset of FILE (0 if not given, and then FILE must not be a project);
               FILE has at most 16,777,215 bytes in all
  --model N    FILE is a PMMv2 project; its model N, from 0, whose section has at most 16,777,215 bytes
  --json       one object: result \"written\", status, output, length, reached, loose;
               or result \"refused\", status, file, model, number, kind, values, words

  intake strip project.pmm --model 0 -o dance.strip
  intake strip - -o - < dance.section > dance.strip
";

pub const COMPARE: &str = "\
intake compare A B [--json]: whether two strips agree

Strips agree if they have the same bytes. If not, the first place where they differ is told, in the order in
which a strip is written: the numbers of bone and morph tracks; then of each track the number of its keys; then
of each key its frame and its fields. Tracks and keys are counted from 0; key 0 is the track's initial one. A
field that a strip leaves out is told as plain. A strip that the library refuses, because it is not as `intake strip`
writes strips, is malformed: the number and what is wrong are told, and nothing is compared.

  A, B         two strips; one of them may be - for standard input
  --json       one object: result \"agree\", status, bones, morphs, key_count; or result \"differ\", status, item
               (bone_count, morph_count, key_count, frame, translation, orientation, movement_curves,
               rotation_curve or weight), kind, track, key, frame, first, second, words; or result
               \"malformed\", status, file, number, words

  intake compare ours.strip theirs.strip
";

pub const REFERENCE: &str = "\
intake reference FILE LIST [--lines] [--start N | --model N] [--json]: which reference of a list has a section's path

  reference N                the number, from 0, of the first model in LIST that has the path of the section
  reference none             no model in LIST has it; the exit status is 1

References of every kind are counted; those of kind 1 are models. The path of the section, up to its first zero
byte, is normalised: its backslashes become slashes; then, in one pass, each `//` becomes `/`; then it is cut to
start at its last `userfile/`, in any letter case, that opens it or follows a slash. The paths in LIST are taken as
they stand. Upper and lower case are alike. A section or a list that is refused, also for a byte above 127 in a
path, is told on standard error, and the exit status is 3.

  FILE         a file that holds the section; - for standard input
  LIST         a file of at most 16,777,215 bytes that holds, for each reference, its kind in a byte, the length of
               its path in two bytes, the lower one first, and its path; - for standard input, if FILE is not
  --lines      LIST is text, one reference a line: its kind as a number from 0 to 255, of at most three digits; one
               space; and its path, which may be empty, up to the end of the line. A line ends with \\n, and a \\r
               before it is dropped. A line that is not so is told with its number, from 1; the exit status is 5.
               The limit is that of the bytes which LIST would have without --lines
  --start N    the section begins at this offset of FILE (0 if not given, and then FILE must not be a project);
               FILE has at most 16,777,215 bytes in all
  --model N    FILE is a PMMv2 project; its model N, from 0, whose section has at most 16,777,215 bytes
  --json       one object: result \"reference\", status, reference (null for none), path (the section's own, as it
               stands); or result \"refused\", status, file, model, number, kind, values, words; or result
               \"malformed\", status, file, line, words

  intake reference project.pmm references --lines --model 0
";

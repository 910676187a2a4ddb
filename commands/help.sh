# v30 help
cat <<'TEXT'
v30 demo               the demonstration meet: riders of 2006, among them one who was born in '28
v30 meet TAPE          the same table for a tape of your own, with a warning for whatever is wrong with it
v30 tape TEXT -o TAPE  makes a tape of a text: bytes of two hex digits, as 28 14 32 57, and remarks behind ;
v30 tape --show TAPE   prints the bytes of a tape as such a text
v30 run ROM [..]       runs a ROM image from reset on, and says where and why it stopped
v30 trace ROM [..]     the same with a line for each step: address, instruction, what it changed, bus cycles, port record
    --tape FILE        the bytes that the program reads from its ports; without it there are none
    --steps N          stops after so many steps; without it after 10000000
    --until ADDRESS    stops when the next instruction is at this address, in hex: FFF2A, or PS:PC as FFF0:002A
    --ram N            bytes of RAM; without it what the ROM leaves of 1048576
    --ram-in FILE      what RAM holds at first, from address 0; the rest is 0
    --interrupts FILE  a line for each interrupt: STEP VECTOR maskable, or STEP VECTOR unmaskable, and perhaps: every N
  run:
    --log FILE         writes the port log there
    --ram-out FILE     writes RAM there, as it is at the end
    --seen FILE        writes there which instructions ran: a line ADDRESS COUNT for each
  trace:
    --from N           the first step that is printed;  --count N  how many are
    --drops            of them only those that dropped a byte: they wrote it where there is no RAM
v30 log FILE           lists a port log; a + behind a number of steps says: at least so many
    --old              a log of the old kind, whose gaps stop at three groups; without it one that v30 run wrote, with five
v30 rom ROM            lists the native instructions of a ROM image of at most 32768 bytes
    --read             to be read: routines, labels, loops, and a plain sentence beside each instruction
    --html             the same as a page for a browser or on paper; it needs -o
    --notes FILE       names and comments for it; reading/README.md says how they are written
    --seen FILE        what run wrote with --seen: marks the instructions that never ran
v30 image LINES        makes the image that the lines of such a listing name
v30 hex ROM -o FILE    writes a ROM image as Intel HEX
v30 unhex FILE -o ROM  reads Intel HEX into an image: --size N  of N bytes, FF at first;  --into IMAGE  of IMAGE's bytes at first
    --base ADDRESS     of the image's first byte, as 65536 or 0x10000; without it the image ends at FFFFFh
    --half even        only the even bytes, for one of a board's two chips;  --half odd  the odd ones
v30 pack FOLDER        makes a folder with all that v30 needs, for a machine without the kit
v30 help               this

-o FILE: log, rom, image and tape write there instead of printing. A file that is written replaces the old one when it is whole.
A ROM has 1 to 1048576 bytes and ends at FFFFFh; RAM begins at 0. A tape has at most 1048576 bytes, a log 65536, a schedule 1048576
and 32768 calls. STEP counts finished steps: 0 calls before the first one. 'every N' calls again each N steps, up to the limit.

Exit status: 0 the machine halted, all steps are done or the address is reached, or what was asked for is made; 1 a file
cannot be used; 2 odd words or numbers; 3 the machine stopped for another reason, or a tape, a log, an image or lines have a fault.
TEXT

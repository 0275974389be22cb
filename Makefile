# make           the library and the program, proved and built
# make plan      the plan of $(TICKET), a ticket as text
# make latest    its latest plan
# make commit    its plan, and the windows and the devices' counts after each commitment in $(BY), with the names of
#                its events; BY="shutter 6..10, shutter 10..10" commits an event and then narrows its window again. Each is
#                asked for by the event's owner; in BY="shutter 6..10 as lamps" the lamps ask, and are refused
# make view      what each device sees of its plan, and after each commitment in $(BY)
# make table     its table of distances, with the names of its events; with STOPS=1 the table before the first
#                stop and after each, from the last event back to the first and then the start
# make reason    why no times keep its rules, with the names of its events and of the devices in $(ROSTER)
# make mend      its text without the rules that cannot be kept with those before them, each of which a comment names;
#                the bytes of the mended ticket are target/mended
# make part      the part of $(DEVICE), by name or number: its events planned alone, with their names, and the part's total
# make install   the header, the library and the pkg-config file, under $(PREFIX)
PREFIX = /usr/local
TICKET = examples/tickets/p1.txt
ROSTER = examples/roster.names
STOPS =
export BY = shutter 6..10, shutter 10..10
export DEVICE = camera
# where rt puts what it builds; target/ holds what is made here
ARCHIVE = crates/beyunlak/out/libbeyunlak.a
PLANNER = crates/planner/out/planner

ifneq ($(filter-out 1,$(STOPS)),)
$(error STOPS=$(STOPS): it is 1 or left out)
endif

all: library program

library:
	cd crates/beyunlak && rt lib

# rt builds a program to run it; it runs on the input that is stored beside it
program:
	cd crates/planner && rt run <stdin >/dev/null

target:
	mkdir -p target

plan: program | target
	tools/ticket encode $(TICKET) target/ticket
	$(PLANNER) <target/ticket

latest: program | target
	tools/ticket encode $(TICKET) target/ticket
	$(PLANNER) latest <target/ticket

commit: library | target
	$(CC) -std=c99 -O2 -Iinclude examples/commit.c $(ARCHIVE) -o target/commit
	tools/ticket encode $(TICKET) target/ticket
	by=$$(tools/ticket by $(TICKET) "$$BY") && target/commit $$by <target/ticket | tools/ticket commits $(TICKET)

view: library | target
	$(CC) -std=c99 -O2 -Iinclude examples/view.c $(ARCHIVE) -o target/view
	tools/ticket encode $(TICKET) target/ticket
	by=$$(tools/ticket by $(TICKET) "$$BY") && target/view $$by <target/ticket | tools/ticket views $(TICKET)

table: library | target
	$(CC) -std=c99 -O2 -Iinclude examples/table.c $(ARCHIVE) -o target/table
	tools/ticket encode $(TICKET) target/ticket
	target/table $(if $(STOPS),stops )<target/ticket | tools/ticket $(if $(STOPS),stops,table) $(TICKET)

# without a TICKET one that has no schedule
reason mend: TICKET = examples/tickets/p6-impossible.txt
reason: library | target
	$(CC) -std=c99 -O2 -Iinclude examples/reason.c $(ARCHIVE) -o target/reason
	tools/ticket encode $(TICKET) target/ticket target/labels
	target/reason target/labels $(ROSTER) target/ticket | tools/ticket reason $(TICKET)

mend: library | target
	$(CC) -std=c99 -O2 -Iinclude examples/mend.c $(ARCHIVE) -o target/mend
	tools/ticket encode $(TICKET) target/ticket
	target/mend target/mended <target/ticket | tools/ticket mended $(TICKET)

part: library | target
	$(CC) -std=c99 -O2 -Iinclude examples/part.c $(ARCHIVE) -o target/part
	tools/ticket encode $(TICKET) target/ticket
	device=$$(tools/ticket device "$$DEVICE") && target/part $$device <target/ticket | tools/ticket part $(TICKET)

install: library
	install -d $(DESTDIR)$(PREFIX)/include $(DESTDIR)$(PREFIX)/lib/pkgconfig
	install -m 644 include/beyunlak.h $(DESTDIR)$(PREFIX)/include
	install -m 644 $(ARCHIVE) $(DESTDIR)$(PREFIX)/lib
	sed 's,@PREFIX@,$(PREFIX),' beyunlak.pc.in >$(DESTDIR)$(PREFIX)/lib/pkgconfig/beyunlak.pc

.PHONY: all library program plan latest commit view table reason mend part install

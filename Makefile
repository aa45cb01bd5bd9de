# `make replay` runs the main job, `make test` the whole gate. `make help` lists the rest.
LIST ?= lists/story.list
N ?= 10000000
SEED ?= 1
DEVICES = i8042 clock serial
REPLAY = target/replay

.PHONY: help replay test quick lists long speed $(REPLAY)

## make replay [LIST=FILE]: prove the devices, then print each access of a list beside what they answer
replay: $(REPLAY)
	@python3 lists/lists.py tell $(REPLAY) $(LIST)

## make test: the whole gate; its last line is `N passed, M failed`
test:
	@./gate

## make quick: what to run after each change: the crates that changed, the lists, the judge on a small set, the documents
quick:
	@./gate --quick

## make lists: hold what the devices answer to every list under lists/
lists: $(REPLAY)
	@python3 lists/lists.py check $(REPLAY) $$(find lists -name '*.list' | sort)

## make long [N=NUMBER] [SEED=NUMBER]: compare with the original on N random accesses
long: $(REPLAY)
	@compare/long $(N) $(SEED) $(REPLAY) $(DEVICES)

## make speed: the time of a million replayed accesses, in units of the original's
speed: $(REPLAY)
	@compare/speed $(REPLAY) $(DEVICES)

# `rt` knows what has changed since it last proved a crate.
$(REPLAY):
	@[ -e $(REPLAY) ] || echo "proving the devices, the first time some minutes: a line for each crate" >&2
	@hosts/replay > /dev/null

help:
	@sed -n 's/^## //p' $(MAKEFILE_LIST)

# The tool bark and its test. rt builds the program over what it has proved, and leaves it in crates/bark/out.
BARK = target/c/bark

.PHONY: bark test-bark

bark:
	cd crates/bark && $(RT) run -- help > /dev/null
	mkdir -p $(dir $(BARK))
	cp crates/bark/out/bark $(BARK)

# Every way of bark to end, and its words. The image and its list are held to what an independent model makes of the same tables, and
# so are the words, the listing, the image and the list of random objects, and what is said of images that are shown.
test-bark: bark
	sh tests/bark.sh $(BARK) > target/c/bark.out
	diff tests/bark.out target/c/bark.out
	cmp examples/logger.tables crates/bark/data/logger.tables
	if command -v python3 > /dev/null; then python3 tools/bark_model.py $(BARK) 200; \
	else echo 'test-bark: no python3 here, the random objects are left out'; fi

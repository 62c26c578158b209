# The planner's page: one file with the proved library and parts as WebAssembly (web/build).
# make page             writes target/tipshare.html
# make check-page       holds it to the program parts, in node and in Chromium, which it installs from Debian where it can
page := target/tipshare.html
.PHONY: page check-page
page: wasm32 parts
	web/build

check-page: page
	node web/test.mjs $(page) $(parts)
	@command -v chromium > /dev/null || { echo "installing Debian's chromium"; apt-get install --yes chromium > target/web/chromium 2>&1; } \
		|| { tail -n 3 target/web/chromium; echo "there is no chromium, and it could not be installed: as root, apt-get update first"; exit 1; }
	mkdir -p target/web/pictures
	node web/browser.mjs $(page) $(parts) target/web/pictures

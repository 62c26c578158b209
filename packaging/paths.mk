# Refuses a path that make or the shell would take apart, before anything is touched: with PREFIX="/x/notes v2" files of
# /x/notes would be removed. A folder may name another one, as LIBDIR='$(PREFIX)/lib64'.
space := $(subst ,, )
tab := $(shell printf '\t')
define newline


endef
unsafe := ! " ' ` $$ & ( ) * ; < > ? [ \ ] ^ { | } % \#
named-one := $$(
white = $(findstring $(space),$1)$(findstring $(tab),$1)$(findstring $(newline),$1)
# What is wrong with the path $1, which the Makefile or the command has as $2.
wrong = $(strip $(if $(call white,$1),white space) \
	$(foreach character,$(unsafe),$(findstring $(character),$1)) $(findstring $$,$(subst $(named-one),,$2)) \
	$(if $1,$(if $(filter /%,$1),,no slash at its beginning)))
refuse = $(if $3,$(error $1 is `$2`, which has $3; name a whole path, without white space and without $(unsafe)))

folders := PREFIX DESTDIR BINDIR INCLUDEDIR LIBDIR MANDIR PYTHONDIR
$(foreach folder,$(folders),$(call refuse,$(folder),$($(folder)),$(call wrong,$($(folder)),$(value $(folder)))))
$(call refuse,the folder of this clone,$(CURDIR),$(call wrong,$(CURDIR)))

"""Traits and impls, the members of these and of extern blocks, and what they share with items: constants and aliases.

`where` a constant or an alias stands is item, foreign, trait or impl: what is raw differs. As in `items`, None stands
for what is raw.
"""
from paths import Seen
from reader import KEYWORDS, Reader
from tokens import MARK, WORD, marks


class Members(Reader):
    """The methods of one kind read behind the visibility, and give tokens or None."""

    def constant(self, where):
        """Raw are one with `<`, with a where clause, and without value but in a trait; `const auto trait` is none."""
        out = self.word('const')
        if self.at_word('auto') and self.at_word('trait', ahead=1):
            self.refuse('no trait')
        out += self.ident_or('_')
        is_raw = self.at_marks('<')
        self.generics()
        out += self.marks(':') + self.type_()
        value = self.value()
        if self.at_word('where') or (not value and where != 'trait'):
            is_raw = True
        self.where()
        out += value + self.marks(';')
        return None if is_raw else out

    def type_alias(self, where):
        """A where clause stands before the `=` of an item or a foreign one, else behind the type, if there was none.

        Raw are those with bounds but in a trait, a foreign one with a type, and without a type an item's and an impl's.
        """
        out = self.word('type') + self.ident() + self.generics()
        has_colon = self.at_marks(':')
        out += self.colon_bounds()
        has_where = where in ('item', 'foreign') and self.at_word('where')
        if has_where:
            out += self.where()
        has_type = self.at_marks('=')
        if has_type:
            out += self.marks('=') + self.type_()
        if not has_where:
            out += self.where()
        out += self.marks(';')
        if where == 'trait':
            return out
        return None if has_colon or has_type == (where == 'foreign') else out

    def braces_of(self, member):
        """A group of inner attributes and members, each read by a method of that name."""
        def read(inside):
            return inside.inner_attributes() + inside.all_of(getattr(inside, member))
        return self.group('{', read)

    # Traits.

    def trait_item(self, may_be_alias=True):
        """A trait, or an alias: `=` behind the generics, with neither `unsafe` nor `auto` in front."""
        front = self.optional('unsafe') + self.optional('auto')
        out = front + self.word('trait') + self.ident() + self.generics()
        if self.at_marks('=') and not front and may_be_alias:
            out += self.marks('=') + self.optional_bounds()
            return out + self.where() + self.marks(';')
        return out + self.colon_bounds() + self.where() + self.braces_of('trait_member')

    def at_restricted_trait(self):
        """`impl` and a group before a trait's first words."""
        words = self.at_word('const', 'unsafe', 'auto', 'trait', ahead=2)
        return self.at_word('impl') and self.at_group('(', 1) and words

    def restricted_trait(self):
        """A trait whose impls are restricted, `impl(crate) trait`, is raw."""
        self.word('impl')
        if self.at_restriction():
            self.place += 1
        else:
            self.restricted_path()
        self.optional('const')
        self.trait_item(may_be_alias=False)

    # Impls.

    def impl_item(self, may_be_default=True):
        """Raw are a `default const` one, and one of a trait that is no path or a qualified one."""
        is_raw = False
        out = []
        if may_be_default and self.at_word('default'):
            out += self.any_word()
            is_raw = bool(self.optional('const'))
        out += self.optional('unsafe') + self.word('impl')
        has_empty = self.at_marks('<') and self.at_marks('>', 1)
        parameters = self.parameters() if self.at_impl_parameters() else []
        is_negative = self.at_marks('!') and not self.at_group('{', 1)
        negation = self.marks('!') if is_negative else []
        start, seen = self.place, Seen()
        body = self.type_(True, seen)
        if self.at_word('for'):
            is_raw = is_raw or not seen.is_path or seen.qualified
            body += self.any_word() + self.type_()
        elif is_negative:
            self.refuse('for')
        elif has_empty and self.like_parameters(start):
            parameters = marks('<') + marks('>')
        body += self.where() + self.braces_of('impl_member')
        return None if is_raw else out + parameters + negation + body

    def like_parameters(self, start):
        """Whether the type that was read from `start` begins as a parameter in `<` and `>`: without the empty
        parameters before it, it would be read as these."""
        if self.place - start < 3:
            return False
        first, name, last = self.tokens[start:start + 3]
        if first.kind != MARK or first.text != '<' or last.kind != MARK or last.text != '>':
            return False
        return name.kind == WORD and name.text not in KEYWORDS

    # Members.

    def member_found(self, read):
        """A member behind its attributes and its visibility, by a function of whether it has one."""
        start = self.place
        attributes = self.outer_attributes()
        visibility = self.visibility()
        return self.found(start, attributes + visibility, read(bool(visibility)))

    def foreign_member(self):
        return self.member_found(self.foreign_behind)

    def trait_member(self):
        return self.member_found(lambda visible: self.member_behind('trait', visible))

    def impl_member(self):
        return self.member_found(lambda visible: self.member_behind('impl', visible))

    def foreign_block(self):
        return self.braces_of('foreign_member')

    def foreign_behind(self, visible):
        """In an extern block a function with a body is raw, and so is a static with a value."""
        if self.at_signature(in_extern=True):
            out = self.signature(in_extern=True)
            if self.at_group('{'):
                self.inner_block()
                return None
            return out + self.marks(';')
        if self.at_word('static') or (self.at_word('safe', 'unsafe') and self.at_word('static', ahead=1)):
            return self.foreign_static()
        if self.at_word('type'):
            return self.type_alias('foreign')
        self.refuse_if(visible)
        return self.macro_item()

    def foreign_static(self):
        out = self.optional('safe', 'unsafe') + self.word('static') + self.optional('mut') + self.ident()
        out += self.marks(':') + self.type_()
        has_value = bool(self.value())
        out += self.marks(';')
        return None if has_value else out

    def member_behind(self, where, visible):
        """A trait's member with visibility or `default` is raw; macros have neither."""
        default = []
        if self.at_word('default') and not (where == 'impl' and self.at_marks('!', 1)):
            default = self.any_word()
        if self.at_signature():
            found = self.member_function(where)
        elif self.at_word('const'):
            found = self.constant(where)
        elif self.at_word('type'):
            found = self.type_alias(where)
        else:
            self.refuse_if(visible or default)
            found = self.macro_item()
        if found is None or (where == 'trait' and (visible or default)):
            return None
        return default + found

    def member_function(self, where):
        """A function without a body is raw in an impl."""
        out = self.signature()
        if not self.at_marks(';'):
            return out + self.inner_block()
        out += self.marks(';')
        return None if where == 'impl' else out

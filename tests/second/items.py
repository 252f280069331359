"""Items of files, modules and blocks.

An item is read behind its attributes and its visibility, by its first words. Some are read whole and kept as the tokens
that were read, attributes and spacing included (raw): their methods give None.
"""
from reader import Reader
from tokens import WORD, Raw


class Items(Reader):
    """The methods of one kind read behind the visibility, and give tokens or None."""

    def file(self):
        return self.inner_attributes() + self.all_of(self.item)

    def found(self, start, front, tokens):
        """What is written of an item that begins at `start`: a raw one is the tokens that were read."""
        return Raw(self.tokens[start:self.place]) if tokens is None else front + tokens

    def item(self):
        start = self.place
        attributes = self.outer_attributes()
        visibility = self.visibility()
        return self.found(start, attributes + visibility, self.item_behind(bool(visibility)))

    def item_behind(self, visible):
        if self.at_signature():
            return self.function_item()
        if self.at_word('const'):
            return self.const_item()
        if self.at_word('unsafe'):
            return self.unsafe_item(visible)
        if self.at_word('extern'):
            return self.extern_item(visible)
        if self.at_restricted_trait():
            return self.restricted_trait()
        if self.at_word('impl') or (self.at_word('default') and not self.at_marks('!', 1)):
            self.refuse_if(visible)
            return self.impl_item()
        return self.plain_item(visible)

    def plain_item(self, visible):
        """An item that its first word decides, or its first two; what begins with none of these is a macro."""
        readers = {'use': self.use_item, 'static': self.static_item, 'mod': self.module_item, 'type': self.type_item,
                   'struct': self.struct_item, 'enum': self.enum_item, 'trait': self.trait_item,
                   'macro': self.macro_definition}
        if self.at_kind(WORD) and self.token().text in readers:
            return readers[self.token().text]()
        if self.at_word('union') and self.at_ident(1):
            return self.union_item()
        if self.at_word('auto') and self.at_word('trait', ahead=1):
            return self.trait_item()
        self.refuse_if(visible)
        return self.macro_item(may_be_named=True)

    def refuse_if(self, visible):
        """Impls, extern blocks and macros have no visibility."""
        if visible:
            self.refuse('no visibility')

    def function_item(self):
        """Without a body it is raw."""
        out = self.signature()
        if self.at_marks(';'):
            self.marks(';')
            return None
        return out + self.inner_block()

    def extern_item(self, visible):
        """An extern crate, else a block of foreign items."""
        if not self.at_word('crate', ahead=1):
            self.refuse_if(visible)
            return self.abi() + self.foreign_block()
        out = self.any_word() + self.any_word() + self.ident_or('self')
        if self.at_word('as'):
            out += self.any_word() + self.ident_or('_')
        return out + self.marks(';')

    def unsafe_item(self, visible):
        if self.at_word('trait', ahead=1) or (self.at_word('auto', ahead=1) and self.at_word('trait', ahead=2)):
            return self.trait_item()
        if self.at_word('mod', ahead=1):
            return self.module_item()
        self.refuse_if(visible)
        if self.at_word('impl', ahead=1):
            return self.impl_item()
        if self.at_word('extern', ahead=1):
            return self.any_word() + self.abi() + self.foreign_block()
        return self.refuse('an item')

    def const_item(self):
        """A constant; `const` before an impl or a trait makes a raw one."""
        ahead = 2 if self.at_word('unsafe', ahead=1) else 1
        if self.at_word('impl', ahead=ahead):
            self.any_word()
            self.impl_item(may_be_default=False)
            return None
        if self.at_word('auto', ahead=ahead) and self.at_word('trait', ahead=ahead + 1):
            ahead += 1
        if self.at_word('trait', ahead=ahead):
            self.any_word()
            self.trait_item()
            return None
        return self.constant('item')

    def use_item(self):
        """A root `::` inside braces makes it raw; behind one in front no other may stand."""
        out = self.word('use')
        has_root = self.at_marks('::')
        if has_root:
            out += self.marks('::')
        tree, root_inside = self.use_tree(not has_root)
        out += tree + self.marks(';')
        return None if root_inside else out

    def use_tree(self, may_have_root):
        """`*`, a group of trees, or a name, with `::` and a tree or `as` behind it perhaps; and whether a root `::`
        stands in it."""
        if self.at_marks('*'):
            return self.marks('*'), False
        if self.at_group('{'):
            return self.use_group(may_have_root)
        if not self.at_ident() and not self.at_word('self', 'super', 'crate', 'try'):
            self.refuse('a use tree')
        out = self.any_word()
        if self.at_marks('::'):
            out += self.marks('::')
            tree, root_inside = self.use_tree(False)
            return out + tree, root_inside
        if self.at_word('as'):
            out += self.any_word() + self.ident_or('_')
        return out, False

    def use_group(self, may_have_root):
        roots = []
        out = self.group('{', lambda inside: inside.listed(lambda: inside.use_branch(may_have_root, roots)))
        return out, any(roots)

    def use_branch(self, may_have_root, roots):
        """A tree in braces: `::` may stand before it where only braces are around it."""
        has_root = may_have_root and self.at_marks('::')
        front = self.marks('::') if has_root else []
        tree, root_inside = self.use_tree(may_have_root and not has_root)
        roots.append(has_root or root_inside)
        return front + tree

    def static_item(self):
        """Without its type or without its value it is raw; one of both it has."""
        out = self.word('static') + self.optional('mut') + self.ident()
        has_type = self.at_marks(':')
        if has_type:
            out += self.marks(':') + self.type_()
        value = self.value()
        out += value + self.marks(';')
        if not has_type and not value:
            self.refuse('a type or a value')
        return out if has_type and value else None

    def module_item(self):
        out = self.optional('unsafe') + self.word('mod') + self.ident_or('try')
        if self.at_group('{'):
            return out + self.group('{', lambda inside: inside.file())
        return out + self.marks(';')

    def type_item(self):
        return self.type_alias('item')

    def macro_definition(self):
        """`macro` with a name is raw."""
        self.word('macro')
        self.ident()
        if self.at_group('('):
            self.raw_group()
        if not self.at_group('{'):
            self.refuse('{')
        self.raw_group()

    def macro_item(self, may_be_named=False):
        """A macro's call, in a file with a name behind the `!` perhaps; without braces it needs its `;`."""
        if self.at_word('Self'):
            self.refuse('an item')
        out = self.module_path() + self.marks('!')
        if may_be_named and (self.at_word('try') or self.at_ident()):
            out += self.any_word()
        has_braces = self.at_group('{')
        out += self.raw_group()
        return out if has_braces else out + self.marks(';')

    # Data types.

    def struct_item(self):
        out = self.word('struct') + self.ident() + self.generics()
        if self.at_group('('):
            return out + self.unnamed_fields() + self.where() + self.marks(';')
        out += self.where()
        return out + (self.named_fields() if self.at_group('{') else self.marks(';'))

    def enum_item(self):
        out = self.word('enum') + self.ident() + self.generics() + self.where()
        return out + self.group('{', lambda inside: inside.listed(inside.variant))

    def union_item(self):
        return self.word('union') + self.ident() + self.generics() + self.where() + self.named_fields()

    def named_fields(self):
        return self.group('{', lambda inside: inside.listed(inside.named_field))

    def unnamed_fields(self):
        return self.group('(', lambda inside: inside.listed(inside.unnamed_field))

    def named_field(self):
        out = self.outer_attributes() + self.visibility() + self.ident_or('_') + self.marks(':') + self.type_()
        return out + self.value()

    def unnamed_field(self):
        out = self.outer_attributes() + self.visibility() + self.type_()
        if self.at_marks('='):
            self.refuse('no value')
        return out

    def variant(self):
        """A variant's visibility is read and forgotten."""
        out = self.outer_attributes()
        self.visibility()
        out += self.ident()
        if self.at_group('{'):
            out += self.named_fields()
        elif self.at_group('('):
            out += self.unnamed_fields()
        return out + self.value()

    def value(self):
        """`=` and an expression, if `=` stands there."""
        return self.marks('=') + self.expression().tokens if self.at_marks('=') else []

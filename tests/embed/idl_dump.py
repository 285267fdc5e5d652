"""A backend of omniidl that prints what a file declares, as JSON, a line for each file: what the tests go by, beside
what is made of it.

A type is the name of a basic one, or a list: ["string", bound], ["sequence", type, bound], ["array", type, size],
["reference", id], ["named", scope], or ["odd", kind] of what can't be made but as octets.
"""
import json
import os

from omniidl import idlast, idltype
from omniidl_be.cxx import id as cxx

BASICS = {
    idltype.tk_boolean: "boolean", idltype.tk_char: "char", idltype.tk_octet: "octet", idltype.tk_short: "short",
    idltype.tk_ushort: "unsigned short", idltype.tk_long: "long", idltype.tk_ulong: "unsigned long",
    idltype.tk_longlong: "long long", idltype.tk_ulonglong: "unsigned long long", idltype.tk_float: "float",
    idltype.tk_double: "double", idltype.tk_any: "any",
}
NAMED = (idltype.tk_enum, idltype.tk_struct, idltype.tk_union)


class Dump:
    """What is found of a file: types by their scopes, and interfaces."""

    def __init__(self, path):
        self.path, self.types, self.exceptions, self.interfaces = path, {}, {}, []

    def sized(self, type, sizes):
        for size in reversed(sizes):
            type = ["array", type, size]
        return type

    def type(self, one):
        """A type, of which the declaration is noted."""
        kind = one.kind()
        if kind in BASICS:
            return BASICS[kind]
        if kind == idltype.tk_string:
            return ["string", one.bound()]
        if kind == idltype.tk_sequence:
            return ["sequence", self.type(one.seqType()), one.bound()]
        if kind == idltype.tk_objref:
            return ["reference", one.decl().repoId() if hasattr(one, "decl") and one.decl() else ""]
        if kind == idltype.tk_alias:
            return self.sized(self.type(one.decl().alias().aliasType()), one.decl().sizes())
        if kind not in NAMED:
            return ["odd", kind]
        self.declare(one.decl())
        return ["named", "::".join(one.scopedName())]

    def members(self, some):
        return [[name.identifier(), self.sized(self.type(one.memberType()), name.sizes())]
                for one in some for name in one.declarators()]

    def declare(self, one):
        """Notes an enum, a struct or a union."""
        one = one.fullDecl() if isinstance(one, (idlast.StructForward, idlast.UnionForward)) else one
        name = "::".join(one.scopedName())
        if name in self.types:
            return
        found = self.types[name] = {"file": one.file()}
        if isinstance(one, idlast.Enum):
            found["enum"] = len(one.enumerators())
        elif isinstance(one, idlast.Struct):
            found["members"] = self.members(one.members())
        else:
            found["switch"] = self.type(one.switchType())
            found["cases"] = [[[self.label(label) for label in case.labels()],
                               self.sized(self.type(case.caseType()), case.declarator().sizes())] for case in one.cases()]

    @staticmethod
    def label(one):
        """A label: None of the default one, of an enumerator its number."""
        value = one.value()
        if one.default():
            return None
        if isinstance(value, idlast.Enumerator):
            return value.value()
        return bool(value) if one.labelKind() == idltype.tk_boolean else value

    def raised(self, one):
        """Notes an exception, and answers its name."""
        name = "::".join(one.scopedName())
        self.exceptions[name] = {"file": one.file(), "members": self.members(one.members())}
        return name

    def operations(self, one):
        """An operation, or those of an attribute, by their names on the wire."""
        if isinstance(one, idlast.Attribute):
            type = self.type(one.attrType())
            verbs = ("get",) if one.readonly() else ("get", "set")
            return [{"name": f"_{verb}_{name}", "parameters": [["in", type]] if verb == "set" else [],
                     "result": type if verb == "get" else None, "raises": [], "oneway": False, "context": False}
                    for name in one.identifiers() for verb in verbs]
        result = None if one.returnType().kind() == idltype.tk_void else self.type(one.returnType())
        parameters = [[each.dirtext(), self.type(each.paramType())] for each in one.parameters()]
        return [{"name": one.identifier(), "parameters": parameters, "result": result,
                 "raises": [self.raised(each) for each in one.raises()], "oneway": bool(one.oneway()),
                 "context": bool(one.contexts())}]

    def interface(self, one):
        self.interfaces.append({
            "name": "::".join(one.scopedName()), "cpp": [cxx.mapID(word) for word in one.scopedName()], "id": one.repoId(),
            "file": one.file(), "is_here": bool(one.mainFile()), "abstract": bool(one.abstract()),
            "bases": ["::".join(base.scopedName()) for base in one.inherits()],
            "operations": [made for each in one.callables() for made in self.operations(each)]})

    def read(self, declarations):
        for one in declarations:
            if isinstance(one, idlast.Module):
                self.read(one.definitions())
            elif isinstance(one, idlast.Interface) and not one.local():
                self.interface(one)


def run(tree, args):
    """Prints what a file has."""
    found = Dump(tree.file())
    found.read(tree.declarations())
    print(json.dumps({"path": os.path.abspath(found.path), "types": found.types, "exceptions": found.exceptions,
                      "interfaces": found.interfaces}))

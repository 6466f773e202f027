"""What tools/build makes in build/: programs, and static libraries for C and two processors."""
from typing import NamedTuple

import crates

BUILT = crates.TOP / "build"
# how they are made, which they depend on too
RECIPE = [crates.TOP / "tools" / "build", crates.TOP / "bindings" / "memory.c"]


class Product(NamedTuple):
    """What is made together: the crates that it is, and the file of each in build/. Without a
    target it is for x86-64."""

    files: dict
    target: str = ""

    @property
    def built(self):
        return {crate: BUILT / file for crate, file in self.files.items()}

    @property
    def made(self):
        """The files that it is."""
        return [*self.built.values(), *self.modules]

    @property
    def archived(self):
        """The crates that are static libraries."""
        return [crate for crate, file in self.files.items() if file.endswith(".a")]

    @property
    def modules(self):
        """The module of LLVM that each static library for x86-64 is compiled from."""
        archived = [] if self.target else self.archived
        return [self.built[crate].with_suffix(".bc") for crate in archived]

    @property
    def objcopy(self):
        """The program that makes names of objects local."""
        return f"{self.target.replace('-unknown', '')}-objcopy" if self.target else "objcopy"

    @property
    def sum(self):
        """The sum of what it was made from, and of it."""
        folder = next(iter(self.built.values())).parent
        return folder / f"{'-'.join(self.files)}.sum"

    @property
    def told(self):
        return " and ".join(f"build/{file}" for file in self.files.values())

    @property
    def needed(self):
        """The crates that it is, and those below."""
        return crates.with_those_below(self.files, crates.listed())

    def state(self):
        """The kit, the files that it is made from and the product itself, as one sum."""
        files = [it for crate in self.needed for it in crates.files_of(crate)]
        built = [it for it in self.made if it.is_file()]
        lines = crates.listed()
        words = [crates.version(), *(lines[it] for it in self.needed)]
        return crates.sum_of(words, [*RECIPE, *files, *built])

    def is_built(self):
        """Whether it is there, and made from these files as they are."""
        is_there = self.sum.is_file() and all(made.is_file() for made in self.made)
        return is_there and self.sum.read_text() == self.state()


# each by the words that tools/build is given
PRODUCTS = {
    "": Product({"wgslfmt": "wgslfmt", "wgslmin": "wgslmin", "wgsltidy": "wgsltidy"}),
    "lib": Product({"wgsl_c": "libwgsl.a"}),
    "lib aarch64": Product({"wgsl_c": "aarch64/libwgsl.a"}, "aarch64-unknown-linux-gnu"),
}

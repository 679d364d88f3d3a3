"""Tests of tools/bare_program, on a few lines of a translation. What the kit makes of them is not tested here."""

import os
import unittest

from support import Folder, loaded, tool

SOURCE = '''// #[inline(never)] fn gone
impl Count {
    #[inline(always)]
    pub fn more(&self) -> u8 {
        1
    }

    #[inline]
    fn less(&self) -> u8 {
        0
    }

    fn plain(&self) -> u8 {
        2
    }
}
'''
TRANSLATED = '''define internal i8 @"crate::counts::Count::more::<#1f>"(ptr %a0) #0 {
  %r0 = alloca i8, align 1
  call void @llvm.memset.p0.i64(ptr %r0, i8 -86, i64 1, i1 false)
  call void @llvm.memset.p0.i64(ptr %r0, i8 0, i64 1, i1 false)
  call void @"rattle-llvm-checks::Alignment"(i8 %r1)
  %r2 = load volatile i8, ptr @static.0, align 1
  call void @llvm.trap()
define internal i8 @"crate::counts::Count::less"(ptr %a0) #0 {
define internal i8 @"crate::counts::Count::plain"(ptr %a0) #0 {
define internal i8 @"crate::other::Count::more"(ptr %a0) #0 {
attributes #0 = { nounwind sanitize_address "frame-pointer"="all" }
'''
BARE = '''define internal i8 @"crate::counts::Count::more::<#1f>"(ptr %a0) alwaysinline #0 {
  %r0 = alloca i8, align 1
  call void @llvm.memset.p0.i64(ptr %r0, i8 0, i64 1, i1 false)
  %r2 = add i8 0, 0
define internal i8 @"crate::counts::Count::less"(ptr %a0) inlinehint #0 {
define internal i8 @"crate::counts::Count::plain"(ptr %a0) #0 {
define internal i8 @"crate::other::Count::more"(ptr %a0) #0 {
attributes #0 = { nounwind "frame-pointer"="all" }
'''


class BareProgram(Folder):
    def test_checks_go_and_attributes_come(self):
        os.mkdir(os.path.join(self.folder, 'src'))
        self.file('src/counts.rt', SOURCE)
        script = loaded('bare_program')
        found = script.attributes([('crate', os.path.join(self.folder, 'src'))])
        self.assertEqual(found, {('crate::counts', 'more'): 'alwaysinline', ('crate::counts', 'less'): 'inlinehint'})
        kept, checks = script.bare(TRANSLATED.splitlines(keepends=True), found)
        self.assertEqual((''.join(kept), checks), (BARE, 2))

    def test_refusals(self):
        out = os.path.join(self.folder, 'out')
        for words in ([], [out, out], [out, '--fast'], [out, '--seconds', 'few'], [out, '--tree', self.folder]):
            status, said, err = tool('bare_program', *words)
            self.assertEqual((status, said, err.count('\n')), (2, '', 1), words)
            self.assertTrue(err.startswith('bare_program: '), err)
        self.assertFalse(os.path.exists(out))


if __name__ == '__main__':
    unittest.main()

package lab;

import jdk.internal.org.objectweb.asm.ClassReader;
import jdk.internal.org.objectweb.asm.ClassVisitor;
import jdk.internal.org.objectweb.asm.ClassWriter;
import jdk.internal.org.objectweb.asm.MethodVisitor;
import jdk.internal.org.objectweb.asm.Opcodes;

/** Rewrites a class by ASM, which is inside JDK 17 to 21. */
final class Rewriter implements Rewriting {
    @Override public byte[] rewritten(byte[] code) {
        ClassReader reader = new ClassReader(code);
        ClassWriter writer = new ClassWriter(reader, ClassWriter.COMPUTE_MAXS);
        reader.accept(new Methods(writer, reader.getClassName()), 0);
        return writer.toByteArray();
    }

    /** Each method of a class. */
    private static final class Methods extends ClassVisitor {
        private final String owner;

        Methods(ClassVisitor next, String owner) {
            super(Opcodes.ASM8, next);
            this.owner = owner;
        }

        @Override
        public MethodVisitor visitMethod(int access, String name, String type, String signature, String[] thrown) {
            int plain = access & ~Opcodes.ACC_SYNCHRONIZED;
            MethodVisitor next = super.visitMethod(plain, name, type, signature, thrown);
            MethodVisitor calls = new RewrittenCalls(next);
            return access == plain ? calls : new RewrittenMethod(calls, access, owner, type);
        }

        // A sealed class isn't sealed here: the first is the name of JDK 17, and the second that of later ones.

        @SuppressWarnings("deprecation")
        public void visitPermittedSubclassExperimental(String permitted) { }

        public void visitPermittedSubclass(String permitted) { }
    }
}

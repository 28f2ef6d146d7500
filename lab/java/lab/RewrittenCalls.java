package lab;

import java.util.Set;
import jdk.internal.org.objectweb.asm.MethodVisitor;
import jdk.internal.org.objectweb.asm.Opcodes;

/** A method in which blocks of `synchronized` and the calls of `wait` and `notify` are those of {@link Intrinsic}. */
final class RewrittenCalls extends MethodVisitor {
    private static final String INTRINSIC = "lab/Intrinsic", OBJECT = "Ljava/lang/Object;";
    /** The calls of Java's own monitor, with what they take. */
    private static final Set<String> CALLS = Set.of("wait()V", "wait(J)V", "wait(JI)V", "notify()V", "notifyAll()V");

    RewrittenCalls(MethodVisitor next) { super(Opcodes.ASM8, next); }

    @Override public void visitInsn(int code) {
        if (code == Opcodes.MONITORENTER) put(mv, "enter", "()V");
        else if (code == Opcodes.MONITOREXIT) put(mv, "leave", "()V");
        else super.visitInsn(code);
    }

    @Override public void visitMethodInsn(int code, String owner, String name, String type, boolean isInterface) {
        boolean isOfObject = code == Opcodes.INVOKEVIRTUAL || code == Opcodes.INVOKESPECIAL;
        if (isOfObject && CALLS.contains(name + type)) put(mv, name, type);
        else super.visitMethodInsn(code, owner, name, type, isInterface);
    }

    /** A call of Intrinsic with the monitor, which is on the stack, and what the call itself takes. */
    static void put(MethodVisitor to, String name, String type) {
        to.visitMethodInsn(Opcodes.INVOKESTATIC, INTRINSIC, name, type.replace("(", "(" + OBJECT), false);
    }
}

package lab;

import java.util.ArrayList;
import java.util.List;
import jdk.internal.org.objectweb.asm.Label;
import jdk.internal.org.objectweb.asm.MethodVisitor;
import jdk.internal.org.objectweb.asm.Opcodes;
import jdk.internal.org.objectweb.asm.Type;

/** A method that was `synchronized`: it comes in at its beginning, and leaves at each end, that by an exception too. */
final class RewrittenMethod extends MethodVisitor {
    private static final Object[] THROWN = {"java/lang/Throwable"};
    private final boolean isStatic;
    private final String owner, type;
    private final Label body = new Label();
    private Label first;
    private boolean hasEntered;

    RewrittenMethod(MethodVisitor next, int access, String owner, String type) {
        super(Opcodes.ASM8, next);
        isStatic = (access & Opcodes.ACC_STATIC) != 0;
        this.owner = owner;
        this.type = type;
    }

    @Override public void visitLabel(Label label) {
        if (hasEntered) super.visitLabel(label);
        else first = label;
    }

    /** It comes in at its first line, so that the call has a line; and before its first label, to which a loop goes. */
    @Override public void visitLineNumber(int line, Label start) {
        if (!hasEntered) enter(line);
        super.visitLineNumber(line, start);
    }

    private void enter(int line) {
        Label own = new Label();
        hasEntered = true;
        visitLabel(own);
        super.visitLineNumber(line, own);
        put("enter");
        visitLabel(body);
        visitLabel(first);
    }

    @Override public void visitInsn(int code) {
        if (code >= Opcodes.IRETURN && code <= Opcodes.RETURN) put("leave");
        super.visitInsn(code);
    }

    /** At its end comes the handler of all that its body throws. */
    @Override public void visitMaxs(int stack, int locals) {
        if (!hasEntered) throw new IllegalStateException(owner + " has no line numbers: compile it by javac -g");
        Label handler = new Label();
        visitLabel(handler);
        Object[] held = held();
        visitFrame(Opcodes.F_FULL, held.length, held, THROWN.length, THROWN);
        put("leave");
        super.visitInsn(Opcodes.ATHROW);
        visitTryCatchBlock(body, handler, handler, null);
        super.visitMaxs(stack, locals);
    }

    private void put(String call) {
        if (isStatic) visitLdcInsn(Type.getObjectType(owner));
        else visitVarInsn(Opcodes.ALOAD, 0);
        RewrittenCalls.put(mv, call, "()V");
    }

    /** The local variables that the method has from its beginning: the object, and what it is given. */
    private Object[] held() {
        List<Object> found = new ArrayList<>();
        if (!isStatic) found.add(owner);
        for (Type given : Type.getArgumentTypes(type)) found.add(held(given));
        return found.toArray();
    }

    private static Object held(Type given) {
        switch (given.getSort()) {
            case Type.FLOAT: return Opcodes.FLOAT;
            case Type.LONG: return Opcodes.LONG;
            case Type.DOUBLE: return Opcodes.DOUBLE;
            case Type.ARRAY: return given.getDescriptor();
            case Type.OBJECT: return given.getInternalName();
            default: return Opcodes.INTEGER;
        }
    }
}

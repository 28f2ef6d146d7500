package lab;

/** A call that a program is about to make: what it does, on which condition, and whether with a test. */
final class Call {
    private final String verb, condition;
    private final boolean hasTest;

    Call(String verb, String condition, boolean hasTest) {
        this.verb = verb;
        this.condition = condition;
        this.hasTest = hasTest;
    }

    void tell(Json answer) {
        answer.text("call", verb).text("on", condition).truth("test", hasTest);
    }
}

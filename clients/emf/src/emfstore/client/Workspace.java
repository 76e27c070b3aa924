package emfstore.client;

import java.util.ArrayList;
import java.util.List;
import java.util.function.Function;

/**
 * A workspace of the store, by its number, and each call that takes one. Keep the number: no command lists workspaces. Where a {@link Recorder} has
 * the workspace, its resource follows each call of this object.
 */
public final class Workspace {
    /** A feature that holds less than its lower bound asks: what it counts, and the bound. */
    public record Lack(String element, String feature, long count, long lower) { }

    /** What is told of each call that changed the model. */
    interface Follower {
        /** The model is now what these steps make of it, or for null another one. */
        void changed(List<Step> steps);
    }

    private static final int CONFLICTS = 25;

    private final Store store;
    private final int number;
    private Follower follower = steps -> { };
    private int base;
    private boolean isComposite;

    /** The workspace of a number that a checkout gave, in this run or an earlier one. Nothing is sent. */
    public Workspace(Store store, int number) {
        this(store, number, Version.NONE);
    }

    Workspace(Store store, int number, int base) {
        this.store = store;
        this.number = number;
        this.base = base;
    }

    /**
     * A new workspace, of the version, branch or tag that the text names.
     *
     * @throws RefusedException where there is none such
     */
    public static Workspace checkout(Store store, String version) {
        Reply reply = store.send("checkout " + version);
        return new Workspace(store, reply.number(0), reply.number(1));
    }

    /** The number by which each command names it. */
    public int number() {
        return number;
    }

    /** The store that has it. */
    public Store store() {
        return store;
    }

    /** What is recorded and not committed; a composite that is open comes last. */
    public List<Operation> changes() {
        List<Operation> found = Operation.read(send("changes").data());
        isComposite = !found.isEmpty() && found.get(found.size() - 1).isOpen();
        return found;
    }

    /** Takes the last operation back. */
    public void undo() {
        send("undo");
        follower.changed(null);
    }

    /** Takes all that is recorded back, with a composite that is open and the pending merges. */
    public void discard() {
        send("discard");
        isComposite = false;
        follower.changed(null);
    }

    /** Tidies what is recorded, to the same effect. */
    public void tidy() {
        send("tidy");
    }

    /** Opens a composite: all edits up to {@link #end} are one operation of that name. */
    public void begin(String name) {
        send("begin", name);
        isComposite = true;
    }

    /** Closes the composite. */
    public void end() {
        send("end");
        isComposite = false;
    }

    /** Whether a composite is open, as far as this object was told. */
    boolean isComposite() {
        return isComposite;
    }

    /**
     * Makes what is recorded a version, and gives its number.
     *
     * @throws RefusedException by 24, Stale, where an update must come before
     */
    public int commit(String message) {
        base = (message.isEmpty() ? send("commit") : send("commit", message)).number(0);
        return base;
    }

    /**
     * The same of a store that was upgraded, where a version names its author and a moment: a number, at least 0, that means what a team agrees on.
     *
     * @throws RefusedException by 24, Stale, where an update must come before, or 39, OldForm, where the store wasn't upgraded
     */
    public int signed(String author, long moment, String message) {
        String who = author + " " + Long.toUnsignedString(moment);
        base = send("signed", message.isEmpty() ? who : who + " " + message).number(0);
        return base;
    }

    /**
     * Brings in the branch's new versions, and gives the head's number. The function is asked once for each conflict which side is kept.
     *
     * @throws IllegalArgumentException where it returns null: nothing is changed then
     */
    public int update(Function<Conflict, Choice> chooser) {
        return store.alone(() -> updated(lines -> letters(Conflicts.ofUpdate(store, number, lines), chooser)));
    }

    /** The same, with one side kept of each conflict, which isn't looked at. */
    public int update(Choice all) {
        return store.alone(() -> updated(lines -> String.valueOf(all.letter()).repeat(lines.size())));
    }

    /**
     * Brings in another branch, and gives its head's number, which is pending: the next commit lists it as merged. The function is asked once for
     * each conflict which side is kept.
     *
     * @throws IllegalArgumentException where it returns null: nothing is changed then
     */
    public int merge(String branch, Function<Conflict, Choice> chooser) {
        return store.alone(() -> merged(branch, lines -> letters(Conflicts.ofMerge(store, number, branch, lines), chooser)));
    }

    /** The same, with one side kept of each conflict, which isn't looked at. */
    public int merge(String branch, Choice all) {
        return store.alone(() -> merged(branch, lines -> String.valueOf(all.letter()).repeat(lines.size())));
    }

    /** Starts a branch at the base, and puts the workspace on it with all that is recorded. */
    public void branch(String name) {
        send("branch", name);
    }

    /** Records what undoes a version on the way to the base. */
    public void revert(int version) {
        send("revert", String.valueOf(version));
        follower.changed(null);
    }

    /** Records the operations of a package: the bytes as {@code package} prints them, two digits each. */
    public void load(String digits) {
        store.send("load " + number, digits);
        follower.changed(null);
    }

    /** The features that hold less than their lower bounds ask. */
    public List<Lack> validate() {
        return send("validate").data().stream().map(it -> it.split(" "))
                .map(it -> new Lack(it[0], it[1], Long.parseLong(it[2]), Long.parseLong(it[3]))).toList();
    }

    /** The text of the model. */
    public String show() {
        return send("show").data().get(0);
    }

    /** The workspace is gone, with all that is recorded and not committed. */
    public void drop() {
        send("drop");
    }

    void follow(Follower told) {
        follower = told;
    }

    /** The letters for conflicts. */
    private static String letters(List<Conflict> conflicts, Function<Conflict, Choice> chooser) {
        StringBuilder letters = new StringBuilder();
        for (Conflict conflict : conflicts) {
            Choice choice = chooser.apply(conflict);
            if (choice == null) {
                throw new IllegalArgumentException("no choice for conflict " + conflict.number() + ": nothing was changed");
            }
            letters.append(choice.letter());
        }
        return letters.toString();
    }

    private int updated(Function<List<String>, String> choose) {
        Reply plain = store.ask(line("update"));
        boolean isPlain = plain.isAccepted();
        int head = (isPlain ? plain : chosen(plain, line("update"), choose)).number(0);
        int before = base;
        base = head;
        if (!isPlain || before != head) {
            follower.changed(isPlain && before != Version.NONE ? steps(before, head) : null);
        }
        return head;
    }

    private int merged(String branch, Function<List<String>, String> choose) {
        Reply plain = store.ask(line("merge", branch));
        int head = (plain.isAccepted() ? plain : chosen(plain, line("merge", branch), choose)).number(0);
        follower.changed(null);
        return head;
    }

    private Reply chosen(Reply refused, String line, Function<List<String>, String> choose) {
        if (refused.refusal() != CONFLICTS) {
            throw new RefusedException(line, refused);
        }
        return store.send(line + " " + choose.apply(refused.data()));
    }

    /** The steps of the versions after one of them, up to another one. */
    private List<Step> steps(int after, int last) {
        // Where one version is new, it is the one made of the other: the log needn't be read.
        List<Integer> versions = last == after + 1 ? List.of(last) : Version.between(store.log(), after, last).stream().map(Version::number).toList();
        List<Step> found = new ArrayList<>();
        for (int version : versions) {
            Operation.read(store.send("package " + version).data()).forEach(it -> found.addAll(it.steps()));
        }
        return found;
    }

    private Reply send(String command, String... words) {
        return store.send(line(command, words));
    }

    private String line(String command, String... words) {
        return command + " " + number + (words.length == 0 ? "" : " " + String.join(" ", words));
    }
}

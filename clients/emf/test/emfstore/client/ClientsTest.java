package emfstore.client;

import java.io.IOException;
import java.io.InputStream;
import java.io.OutputStream;
import java.nio.file.Files;
import java.nio.file.Path;
import java.util.List;
import java.util.Map;
import java.util.Random;
import org.eclipse.emf.common.util.TreeIterator;
import org.eclipse.emf.ecore.EClass;
import org.eclipse.emf.ecore.EObject;
import org.eclipse.emf.ecore.resource.Resource;
import org.eclipse.emf.ecore.util.EcoreUtil;
import org.eclipse.emf.ecore.xmi.XMLResource;

/** Runs the tools and the Recorder against the built program: on EMF's own metamodels, on models of them, and on a metamodel of all kinds. */
final class ClientsTest extends Fixture {
    private static final List<String> OF_EMF = List.of("Ecore", "XMLType", "XMLNamespace", "Change", "ExtendedMetaData", "EcoreAnnotation",
            "DateConversionDelegateAnnotation");
    private static final int EDITS = 2_000;
    private static final int EDITS_A_LOOK = 100;
    private static final int EDITS_A_COMPOSITE = 10;
    private static final int EDITS_A_ROUND = 15;
    private static final int ROUNDS = 40;
    private static final int UNSIGNED = 40;
    /** As many elements as there may be: few in the first half of the edits, so that their lists are long, and then many. */
    private static final int FEW = 20;
    private static final int MANY = 300;
    private static final int MODEL_BYTES = 50_000;
    /** Limits by which a model of that size makes many blocks. */
    private static final Blocks.Limits SMALL = new Blocks.Limits(6_000, 100_000, 160, 3);

    ClientsTest(Path program, Path folder, Path tests) {
        super(program, folder, tests);
    }

    void run() throws IOException {
        metamodels();
        remarks();
        models();
        notifications();
        edits();
        conflicts();
        twoPeople();
        refusals();
    }

    /** Each of EMF's metamodels is one of the program, and what it hasn't is named. */
    private void metamodels() throws IOException {
        for (String name : OF_EMF) {
            start(profile(ofEmf(name))).close();
        }
        for (String ecore : List.of(kinds, beside("other.ecore"))) {
            List<String> wanted = Files.readAllLines(Path.of(ecore.replace(".ecore", ".remarks")));
            check(profile(ecore).remarks().equals(wanted), "remarks on " + ecore + ": " + profile(ecore).remarks());
            start(profile(ecore)).close();
        }
        tell(OF_EMF.size() + 2 + " metamodels");
    }

    /** A model with what can't be carried goes in without that, and it is named. */
    private void remarks() throws IOException {
        Metamodels metamodels = new Metamodels(List.of(kinds));
        Profile profile = new Profile(metamodels.packages());
        Xmi2Script tool = new Xmi2Script(profile);
        List<String> script = tool.script(metamodels.load(beside("odd.xmi")).getContents(), 1, Blocks.Limits.OF_PROGRAM);
        check(tool.remarks().equals(Files.readAllLines(Path.of(beside("odd.remarks")))), "remarks on odd.xmi: " + tool.remarks());
        try (Store store = start(profile)) {
            store.send("checkout 0");
            check(send(store, script) == 3, "odd.xmi has another number of elements");
        }
    }

    /** Models go in and come out equal, also in many blocks. */
    private void models() throws IOException {
        model("Ecore", ofEmf("Ecore"), ofEmf("Ecore"), MODEL_BYTES);
        for (String name : List.of("Change", "ExtendedMetaData")) {
            model(name, ofEmf(name), randomModel(name, ofEmf(name)), MODEL_BYTES);
        }
    }

    /** Brings a model in, once in one block and once in many; what the program prints for it has so many bytes at least. */
    private void model(String name, String ecore, String model, int least) throws IOException {
        String first = roundTrip(ecore, model, Blocks.Limits.OF_PROGRAM, name + "1.xmi", least);
        roundTrip(ecore, first, SMALL, name + "2.xmi", least);
        tell("a model of " + name + ", " + Files.size(Path.of(first)) + " bytes of XMI");
    }

    /** Brings a model in, and what the program shows into a file; the file as EMF loads it must be equal to the model. */
    private String roundTrip(String ecore, String model, Blocks.Limits limits, String file, int least) throws IOException {
        Metamodels metamodels = new Metamodels(List.of(ecore));
        Profile profile = new Profile(metamodels.packages());
        Resource original = metamodels.load(model);
        Xmi2Script tool = new Xmi2Script(profile);
        List<String> script = tool.script(original.getContents(), 1, limits);
        check(tool.remarks().isEmpty(), model + ": " + tool.remarks());
        try (Store store = start(profile)) {
            store.send("checkout 0");
            send(store, script);
            XMLResource shown = metamodels.create(folder.resolve(file).toString());
            String text = store.send("show 1").data().get(0);
            check(text.length() >= least, file + ": " + text.length() + " bytes are few");
            ModelFiller.fill(shown, profile, new Ids(), text);
            shown.save(Map.of());
            shown.getResourceSet().getResources().remove(shown);
        }
        String written = folder.resolve(file).toString();
        checkEqual(original, metamodels.load(written), file);
        return written;
    }

    /** A file with a model that random edits made. */
    private String randomModel(String name, String ecore) throws IOException {
        Metamodels metamodels = new Metamodels(List.of(ecore));
        XMLResource model = metamodels.create(folder.resolve(name + ".xmi").toString());
        Profile profile = new Profile(metamodels.packages());
        RandomEdits edits = new RandomEdits(profile, model, 1, classes(profile, metamodels));
        while (size(model) < MODEL_BYTES) {
            for (int i = 0; i < EDITS_A_LOOK; i++) {
                edits.edit(Integer.MAX_VALUE);
            }
            edits.putBack();
            model.getContents().retainAll(ModelText.roots(model));
        }
        model.save(Map.of());
        return folder.resolve(name + ".xmi").toString();
    }

    /** What is sent for a change of each kind is what the file of examples has. */
    private void notifications() throws IOException {
        Metamodels metamodels = new Metamodels(List.of(kinds));
        Profile profile = new Profile(metamodels.packages());
        Path written = Files.writeString(folder.resolve("written"), "#!/bin/sh\nsed -u 'w sent' | " + program + "\n");
        check(written.toFile().setExecutable(true), "no program that writes down what is sent");
        XMLResource live = metamodels.create("live.xmi");
        try (Store store = start(written, profile); Recorder recorder = Recorder.checkout(store, profile, "trunk", live)) {
            List<String> told = new Notifications(profile, live, folder.resolve("store" + stores).resolve("sent")).lines();
            check(recorder.text().equals(store.send("show 1").data().get(0)), "the program shows another model");
            List<String> wanted = Files.readAllLines(Path.of(beside("notifications.txt")));
            check(told.equals(wanted), "notifications.txt has other lines than\n" + String.join("\n", told));
        }
        tell("a notification of each kind");
    }

    /** Random edits of a live resource: it, the program's text and a second resource filled from that are equal after each hundred. */
    private void edits() throws IOException {
        Metamodels metamodels = new Metamodels(List.of(kinds));
        Profile profile = new Profile(metamodels.packages());
        XMLResource live = metamodels.create(folder.resolve("live.xmi").toString());
        RandomEdits edits = new RandomEdits(profile, live, 2, classes(profile, metamodels));
        int refused = 0;
        try (Store store = start(profile); Recorder recorder = Recorder.checkout(store, profile, "trunk", live)) {
            for (int i = 1; i <= EDITS; i++) {
                int most = i <= EDITS / 2 ? FEW : MANY;
                try {
                    if (i % EDITS_A_COMPOSITE == 0) {
                        recorder.composite("several", () -> List.of(most, most, most).forEach(edits::edit));
                    } else {
                        edits.edit(most);
                    }
                } catch (RefusedException | IllegalArgumentException refusal) {
                    refused++;
                    edits.refresh();
                }
                if (i % EDITS_A_LOOK == 0) {
                    edits.putBack();
                    checkShown(store, recorder, profile, live, "after " + i + " edits");
                    recorder.commit(i + " edits");
                }
            }
        }
        tell(EDITS + " edits recorded, " + refused + " refused");
        live.getContents().retainAll(ModelText.roots(live));
        live.save(Map.of());
        model("kinds", kinds, folder.resolve("live.xmi").toString(), 1);
    }

    /** Two people give one element a name, and one of them chooses: the first time mine, then theirs. What doesn't conflict stays. Then one signs. */
    private void conflicts() throws IOException {
        Metamodels metamodels = new Metamodels(List.of(kinds));
        Profile profile = new Profile(metamodels.packages());
        XMLResource ofAnn = metamodels.create("ann.xmi");
        XMLResource ofBen = metamodels.create("ben.xmi");
        try (Store store = start(profile); Recorder ann = Recorder.checkout(store, profile, "trunk", ofAnn)) {
            ofAnn.getContents().add(create(profile, "Node", "door"));
            ann.commit("a door");
            Recorder ben = Recorder.checkout(store, profile, "trunk", ofBen);
            for (Choice choice : Choice.values()) {
                String before = (String) get(ofAnn.getContents().get(0), "name");
                set(ofAnn.getContents().get(0), "name", "Ann's, " + choice);
                ann.commit("hers");
                set(ofBen.getContents().get(0), "name", "Ben's, " + choice);
                ofBen.getContents().add(create(profile, "Node", "his own"));
                checkRefused(24, () -> ben.commit("his"));
                ben.update(conflict -> {
                    Conflict.Change wanted = new Conflict.Change(ben.id(ofBen.getContents().get(0)), "Ben's, " + choice, "Ben's, " + choice, "name",
                            Json.quote(before), Json.quote("Ann's, " + choice), Json.quote("Ben's, " + choice));
                    check(conflict.number() == 1 && conflict.changes().equals(List.of(wanted)), "another conflict: " + conflict);
                    return choice;
                });
                String kept = choice == Choice.MINE ? "Ben's, " : "Ann's, ";
                check(get(ofBen.getContents().get(0), "name").equals(kept + choice), "not " + kept + choice);
                ben.commit("his");
                ann.update(bucket -> choice);
                check(ann.text().equals(ben.text()), "Ann and Ben have other models");
                checkEqual(ofAnn, ofBen, "after " + choice);
            }
            check(ofAnn.getContents().size() == 1 + Choice.values().length, "an element is lost");
            store.send("upgrade");
            set(ofAnn.getContents().get(0), "name", "signed");
            checkRefused(UNSIGNED, () -> ann.commit("hers"));
            int signed = ann.signed("ann", 1767225600L, "hers");
            String version = store.send("log").data().get(signed);
            check(version.endsWith(" ann 1767225600 \"hers\""), "another version: " + version);
        }
        tell("a conflict resolved both ways, and a version signed");
    }

    /** Two people edit at random and take each other's versions, with a choice at random for each conflict: their resources are equal then. */
    private void twoPeople() throws IOException {
        Metamodels metamodels = new Metamodels(List.of(kinds));
        Profile profile = new Profile(metamodels.packages());
        XMLResource ofAnn = metamodels.create("ann.xmi");
        XMLResource ofBen = metamodels.create("ben.xmi");
        RandomEdits annsEdits = new RandomEdits(profile, ofAnn, 3, classes(profile, metamodels));
        RandomEdits bensEdits = new RandomEdits(profile, ofBen, 4, classes(profile, metamodels));
        Random random = new Random(5);
        int[] conflicts = {0};
        try (Store store = start(profile); Recorder ann = Recorder.checkout(store, profile, "trunk", ofAnn);
                Recorder ben = Recorder.checkout(store, profile, "trunk", ofBen)) {
            for (int round = 1; round <= ROUNDS; round++) {
                edit(annsEdits);
                edit(bensEdits);
                ann.commit("hers " + round);
                ben.update(bucket -> {
                    conflicts[0]++;
                    return random.nextBoolean() ? Choice.MINE : Choice.THEIRS;
                });
                check(ben.text().equals(store.send("show 2").data().get(0)), "round " + round + ": Ben's resource is another model");
                commit(ben, "his " + round);
                ann.update(bucket -> Choice.MINE);
                check(ann.text().equals(ben.text()), "round " + round + ": Ann and Ben have other models");
                checkEqual(ofAnn, ofBen, "round " + round);
            }
        }
        tell(ROUNDS + " updates, with " + conflicts[0] + " conflicts");
    }

    private static void edit(RandomEdits edits) {
        edits.refresh();
        for (int i = 0; i < EDITS_A_ROUND; i++) {
            try {
                edits.edit(FEW);
            } catch (RefusedException | IllegalArgumentException refusal) {
                edits.refresh();
            }
        }
        edits.putBack();
    }

    /** Where a change is refused all of it is taken back, in the store and in the resource, and each element stays the object that it was. */
    private void refusals() throws IOException {
        Metamodels metamodels = new Metamodels(List.of(kinds));
        Profile profile = new Profile(metamodels.packages());
        XMLResource live = metamodels.create("live.xmi");
        try (Store store = start(profile); Recorder recorder = Recorder.checkout(store, profile, "trunk", live)) {
            EObject node = create(profile, "Node", "node");
            EObject other = create(profile, "Values", "other");
            live.getContents().addAll(List.of(node, other));
            list(node, "few").addAll(List.of(create(profile, "Values", "1"), create(profile, "Values", "2")));
            List<EObject> pair = List.of(create(profile, "Values", "3"), create(profile, "Values", "4"));
            List<Runnable> edits = List.of(
                    () -> list(node, "few").addAll(pair),
                    () -> recorder.composite("both", () -> {
                        set(node, "name", "x");
                        list(node, "few").add(pair.get(0));
                        list(node, "few").add(other);
                    }),
                    () -> list(node, "repeated").addAll(List.of(node, node)),
                    () -> set(node, "name", "long".repeat(Store.LINE_BYTES)));
            String text = recorder.text();
            List<String> changes = store.send("changes 1").data();
            List<EObject> few = List.copyOf(list(node, "few"));
            for (int i = 0; i < edits.size(); i++) {
                checkRefused(i < 2 ? 19 : 0, edits.get(i));
                check(recorder.text().equals(text) && store.send("show 1").data().equals(List.of(text)), "change " + i + " is left in the model");
                check(store.send("changes 1").data().equals(changes), "change " + i + " is recorded");
                check(list(node, "few").equals(few) && live.getContents().equals(List.of(node, other)), "change " + i + " leaves other objects");
            }
            tell(edits.size() + " refusals");
        }
    }

    private void checkShown(Store store, Recorder recorder, Profile profile, XMLResource live, String when) throws IOException {
        String text = store.send("show 1").data().get(0);
        check(recorder.text().equals(text), when + " the program shows another model");
        for (TreeIterator<EObject> all = live.getAllContents(); all.hasNext(); ) {
            EObject element = all.next();
            check(recorder.id(element).equals(live.getID(element)), when + " an element has another id in its resource");
        }
        XMLResource second = new Metamodels(List.of(kinds)).create("second.xmi");
        ModelFiller.fill(second, profile, new Ids(), text);
        checkEqual(live, second, when);
    }

    private static List<EClass> classes(Profile profile, Metamodels metamodels) {
        EObject whole = metamodels.packages().get(0);
        return profile.classifiers().stream().filter(EClass.class::isInstance).map(EClass.class::cast)
                .filter(it -> !it.isAbstract() && EcoreUtil.isAncestor(whole, it)).toList();
    }

    private static long size(XMLResource model) throws IOException {
        long[] count = {0};
        model.save(new OutputStream() {
            @Override
            public void write(int b) {
                count[0]++;
            }
        }, Map.of());
        return count[0];
    }

    /** A file with one of EMF's own metamodels, out of its libraries. */
    private String ofEmf(String name) throws IOException {
        Path file = folder.resolve(name + ".ecore");
        if (Files.notExists(file)) {
            try (InputStream found = ClientsTest.class.getResourceAsStream("/model/" + name + ".ecore")) {
                Files.copy(found, file);
            }
        }
        return file.toString();
    }

}

package emfstore.client;

import java.io.ByteArrayInputStream;
import java.io.ByteArrayOutputStream;
import java.io.IOException;
import java.io.PrintStream;
import java.nio.charset.StandardCharsets;
import java.nio.file.Files;
import java.nio.file.Path;
import java.util.ArrayList;
import java.util.List;
import java.util.Map;
import java.util.Random;
import org.eclipse.emf.ecore.EAttribute;
import org.eclipse.emf.ecore.EClass;
import org.eclipse.emf.ecore.EClassifier;
import org.eclipse.emf.ecore.EDataType;
import org.eclipse.emf.ecore.EObject;
import org.eclipse.emf.ecore.EPackage;
import org.eclipse.emf.ecore.EReference;
import org.eclipse.emf.ecore.EcoreFactory;
import org.eclipse.emf.ecore.EcorePackage;
import org.eclipse.emf.ecore.resource.Resource;
import org.eclipse.emf.ecore.util.EcoreUtil;

/** Models go in by `xmi2script` and come out by `store2xmi`, and what can't go in fails whoever calls the tool. */
final class ImportTest extends Fixture {
    private static final int ELEMENTS = 20_000;
    private static final int ELEMENTS_A_PARENT = 27;
    /** So long a text in each element that the model needs several blocks. */
    private static final int LABEL = 450;
    private static final String HEAD = "<ecore:EPackage xmi:version=\"2.0\" xmlns:xmi=\"http://www.omg.org/XMI\" "
            + "xmlns:xsi=\"http://www.w3.org/2001/XMLSchema-instance\" xmlns:ecore=\"http://www.eclipse.org/emf/2002/Ecore\" ";
    private static final String STRING = "eType=\"ecore:EDataType http://www.eclipse.org/emf/2002/Ecore#//EString\"";

    ImportTest(Path program, Path folder, Path tests) {
        super(program, folder, tests);
    }

    void run() throws IOException {
        System.setProperty("emfstore", program.toString());
        largeModel();
        sameIds();
        idAttributes();
        refusals();
        literals();
    }

    /** A new store with a metamodel and workspace 1, which no program has. */
    private String withWorkspace(Profile profile) throws IOException {
        try (Store store = start(profile)) {
            store.send("checkout 0");
            return store.folder().toString();
        }
    }

    /** What a run of a tool came to. */
    record Ran(int status, String out, String err) {
        static Ran tool(String input, List<String> words) {
            ByteArrayOutputStream out = new ByteArrayOutputStream();
            ByteArrayOutputStream err = new ByteArrayOutputStream();
            int status = new Tools(new ByteArrayInputStream(input.getBytes(StandardCharsets.UTF_8)),
                    new PrintStream(out, false, StandardCharsets.UTF_8), new PrintStream(err, true, StandardCharsets.UTF_8)).status(words);
            return new Ran(status, out.toString(StandardCharsets.UTF_8), err.toString(StandardCharsets.UTF_8));
        }
    }

    /** A model without ids, of three metamodels, in several blocks with links between all of them: it comes out equal. */
    private void largeModel() throws IOException {
        List<String> files = List.of("a.ecore", "b.ecore", "c.ecore").stream().map(it -> folder.resolve(it).toString()).toList();
        writeMetamodels(files);
        String model = folder.resolve("large.xmi").toString();
        writeModel(new Metamodels(files), model);
        List<String> words = new ArrayList<>(List.of("xmi2script", model));
        words.addAll(files);
        Ran script = Ran.tool("", words);
        check(script.status() == 0 && script.err().isEmpty(), "xmi2script: " + script.err());
        long blocks = script.out().lines().filter(it -> it.equals("import 1")).count();
        check(blocks > 1, "only " + blocks + " blocks");
        Path place = Path.of(withWorkspace(new Profile(new Metamodels(files).packages())));
        Path lines = Files.writeString(folder.resolve("large.script"), script.out());
        check(status(place, lines) == 0, "a line of the large model is refused");
        try (Store store = new Store(program, place)) {
            List<String> back = new ArrayList<>(List.of("store2xmi"));
            back.addAll(files);
            Ran written = Ran.tool(store.send("show 1").data().get(0), back);
            check(written.status() == 0, "store2xmi: " + written.err());
            Files.writeString(folder.resolve("back.xmi"), written.out());
        }
        Metamodels one = new Metamodels(files);
        Resource first = one.load(model);
        Resource second = one.load(folder.resolve("back.xmi").toString());
        check(EcoreUtil.equals(first.getContents(), second.getContents()), "the large model comes out otherwise");
        tell("a model of " + ELEMENTS + " elements in " + blocks + " blocks");
    }

    /** The status of the program that is given a script. */
    private int status(Path place, Path script) throws IOException {
        Process sent = new ProcessBuilder(program.toString()).directory(place.toFile()).redirectInput(script.toFile())
                .redirectOutput(ProcessBuilder.Redirect.DISCARD).start();
        try {
            return sent.waitFor();
        } catch (InterruptedException interrupted) {
            throw new AssertionError(interrupted);
        }
    }

    /** Three packages: `a` has the boxes, `b` boxes that refer to boxes, `c` boxes that are in pairs of references. */
    private static void writeMetamodels(List<String> files) throws IOException {
        EPackage a = metamodel("a");
        EClass box = addClass(a, "Box", null);
        EAttribute label = EcoreFactory.eINSTANCE.createEAttribute();
        label.setName("label");
        label.setEType(EcorePackage.Literals.ESTRING);
        box.getEStructuralFeatures().add(label);
        addReference(box, "boxes", box, -1).setContainment(true);
        EPackage b = metamodel("b");
        EClass pointer = addClass(b, "Pointer", box);
        addReference(pointer, "next", box, 1);
        addReference(pointer, "others", box, -1);
        EPackage c = metamodel("c");
        EClass pair = addClass(c, "Pair", pointer);
        EReference sees = addReference(pair, "sees", pair, -1);
        EReference seen = addReference(pair, "seen", pair, -1);
        sees.setEOpposite(seen);
        seen.setEOpposite(sees);
        List<EPackage> packages = List.of(a, b, c);
        Metamodels set = new Metamodels(List.of());
        for (int i = 0; i < files.size(); i++) {
            set.create(files.get(i)).getContents().add(packages.get(i));
        }
        for (EPackage each : packages) {
            each.eResource().save(Map.of());
        }
    }

    private static EPackage metamodel(String name) {
        EPackage made = EcoreFactory.eINSTANCE.createEPackage();
        made.setName(name);
        made.setNsPrefix(name);
        made.setNsURI("http://" + name + "/1");
        return made;
    }

    private static EClass addClass(EPackage to, String name, EClass above) {
        EClass made = EcoreFactory.eINSTANCE.createEClass();
        made.setName(name);
        if (above != null) {
            made.getESuperTypes().add(above);
        }
        to.getEClassifiers().add(made);
        return made;
    }

    private static EReference addReference(EClass to, String name, EClass type, int upper) {
        EReference made = EcoreFactory.eINSTANCE.createEReference();
        made.setName(name);
        made.setEType(type);
        made.setUpperBound(upper);
        to.getEStructuralFeatures().add(made);
        return made;
    }

    private static void writeModel(Metamodels metamodels, String file) throws IOException {
        List<EClass> classes = new ArrayList<>();
        for (EPackage each : metamodels.packages()) {
            each.getEClassifiers().stream().map(EClass.class::cast).forEach(classes::add);
        }
        Random random = new Random(6);
        List<EObject> made = new ArrayList<>();
        for (int i = 0; i < ELEMENTS; i++) {
            EObject element = EcoreUtil.create(i == 0 ? classes.get(0) : classes.get(random.nextInt(classes.size())));
            set(element, "label", i + "x".repeat(random.nextInt(2 * LABEL)));
            if (i > 0) {
                list(made.get((i - 1) / ELEMENTS_A_PARENT), "boxes").add(element);
            }
            made.add(element);
        }
        for (EObject element : made) {
            for (EReference reference : element.eClass().getEAllReferences()) {
                List<EObject> fitting = new ArrayList<>();
                for (int i = 0; i < 2; i++) {
                    EObject target = made.get(random.nextInt(made.size()));
                    if (reference.getEReferenceType().isInstance(target) && target != element && !fitting.contains(target)) {
                        fitting.add(target);
                    }
                }
                if (!reference.isContainment() && !fitting.isEmpty()) {
                    if (reference.isMany()) {
                        list(element, reference.getName()).addAll(fitting);
                    } else {
                        element.eSet(reference, fitting.get(0));
                    }
                }
            }
        }
        Resource plain = metamodels.create(file);
        plain.getContents().add(made.get(0));
        plain.save(Map.of());
    }

    /** Of elements with one `xmi:id`, which EMF loads without a word, the later ones get others. */
    private void sameIds() throws IOException {
        Path file = Files.writeString(folder.resolve("same.xmi"), """
                <?xml version="1.0" encoding="UTF-8"?>
                <xmi:XMI xmi:version="2.0" xmlns:xmi="http://www.omg.org/XMI" xmlns:kinds="http://kinds/1">
                  <kinds:Node xmi:id="a" name="one"/>
                  <kinds:Node xmi:id="a" name="two"/>
                </xmi:XMI>
                """);
        Ran ran = Ran.tool("", List.of("xmi2script", "-s", withWorkspace(profile(kinds)), file.toString(), kinds));
        check(ran.status() == 0 && ran.out().equals("2 elements\n"), "same ids: " + ran.err());
        check(ran.err().equals("an id that an earlier element has is replaced\n"), "same ids are told otherwise: " + ran.err());
    }

    /** A reference by an attribute that is an id, of a class of another document, is found also where its target comes later. */
    private void idAttributes() throws IOException {
        Path base = Files.writeString(folder.resolve("base.ecore"), HEAD + "name=\"base\" nsURI=\"http://base/1\" nsPrefix=\"base\">"
                + "<eClassifiers xsi:type=\"ecore:EClass\" name=\"Thing\">"
                + "<eStructuralFeatures xsi:type=\"ecore:EAttribute\" name=\"key\" iD=\"true\" " + STRING + "/></eClassifiers></ecore:EPackage>");
        Path things = Files.writeString(folder.resolve("things.ecore"), HEAD + "name=\"things\" nsURI=\"http://things/1\" nsPrefix=\"things\">"
                + "<eClassifiers xsi:type=\"ecore:EClass\" name=\"Holder\" eSuperTypes=\"" + base.getFileName() + "#//Thing\">"
                + "<eStructuralFeatures xsi:type=\"ecore:EReference\" name=\"other\" eType=\"#//Holder\"/></eClassifiers></ecore:EPackage>");
        Path model = Files.writeString(folder.resolve("things.xmi"), """
                <xmi:XMI xmi:version="2.0" xmlns:xmi="http://www.omg.org/XMI" xmlns:things="http://things/1">
                  <things:Holder key="one" other="two"/>
                  <things:Holder key="two"/>
                </xmi:XMI>
                """);
        Ran ran = Ran.tool("", List.of("xmi2script", model.toString(), things.toString()));
        check(ran.status() == 0 && ran.out().contains("\"other\":{\"$ref\":"), "a reference by an id is lost: " + ran);
    }

    /** Where a line is refused the tool fails, and nothing is recorded. So where the store has another metamodel. */
    private void refusals() throws IOException {
        String small = write("small.ecore", "<eStructuralFeatures xsi:type=\"ecore:EAttribute\" name=\"label\" " + STRING + "/>");
        String wide = write("wide.ecore", "<eStructuralFeatures xsi:type=\"ecore:EAttribute\" name=\"label\" " + STRING + "/>"
                + "<eStructuralFeatures xsi:type=\"ecore:EAttribute\" name=\"width\" " + STRING + "/>");
        Path model = Files.writeString(folder.resolve("wide.xmi"),
                "<w:Box xmi:version=\"2.0\" xmlns:xmi=\"http://www.omg.org/XMI\" xmlns:w=\"http://w/1\" label=\"x\" width=\"y\"/>");
        Ran sent = Ran.tool("", List.of("xmi2script", "-s", withWorkspace(profile(small)), model.toString(), wide));
        check(sent.status() == 1 && sent.err().contains("BadModel"), "a refusal is passed over: " + sent);
        try (Store store = new Store(program, folder.resolve("store" + stores))) {
            check(store.send("changes 1").data().isEmpty(), "a refused import is recorded");
        }
        try (Store store = start(profile(wide))) {
            store.send("checkout 0");
            store.send("import 1", "{\"eClass\":\"//Box\",\"width\":\"y\"}");
            Ran ran = Ran.tool(store.send("show 1").data().get(0), List.of("store2xmi", small));
            check(ran.status() == 1 && ran.err().contains("no feature Box.width"), "a value of another metamodel is dropped: " + ran);
            Metamodels metamodels = new Metamodels(List.of(small));
            try {
                Recorder.checkout(store, new Profile(metamodels.packages()), "0", metamodels.create("x.xmi"));
                store.send("undo 1");
                Recorder.open(store, new Profile(metamodels.packages()), 1, metamodels.create("y.xmi"));
            } catch (IllegalArgumentException otherMetamodel) {
                throw new AssertionError("nothing is there of the other metamodel", otherMetamodel);
            }
        }
        tell("imports that are refused");
    }

    private String write(String name, String features) throws IOException {
        return Files.writeString(folder.resolve(name), HEAD + """
                name="w" nsURI="http://w/1" nsPrefix="w">
                  <eClassifiers xsi:type="ecore:EClass" name="Box">""" + features + """
                </eClassifiers>
                  <eClassifiers xsi:type="ecore:EEnum" name="Tone">
                    <eLiterals name="dark-blue"/><eLiterals name="dark_blue" value="1"/><eLiterals name="pale blue" value="2" literal="pale"/>
                  </eClassifiers>
                </ecore:EPackage>
                """).toString();
    }

    /** The names of literals are adapted, and values go by their texts. */
    private void literals() throws IOException {
        String tones = write("tones.ecore", "<eStructuralFeatures xsi:type=\"ecore:EAttribute\" name=\"tone\" eType=\"#//Tone\"/>");
        List<String> remarks = profile(tones).remarks();
        List<String> wanted = List.of("w.Tone.dark-blue: its name here is dark_blue_", "w.Tone.pale blue: its name here is pale_blue");
        check(remarks.equals(wanted), "literals: " + remarks);
        Metamodels metamodels = new Metamodels(List.of(tones));
        Profile profile = new Profile(metamodels.packages());
        try (Store store = start(profile); Recorder recorder = Recorder.checkout(store, profile, "0", metamodels.create("tones.xmi"))) {
            EObject box = EcoreUtil.create(profile.classNamed("Box"));
            Resource live = recorder.resource();
            live.getContents().add(box);
            for (String text : List.of("pale", "dark_blue")) {
                EClassifier type = box.eClass().getEStructuralFeature("tone").getEType();
                set(box, "tone", EcoreUtil.createFromString((EDataType) type, text));
                check(store.send("show 1").data().get(0).contains("\"tone\":\"" + text + "\""), "another literal than " + text);
            }
        }
    }
}

import java.lang.management.ManagementFactory;
import java.lang.management.ThreadMXBean;
import java.util.List;
import org.eclipse.emf.ecore.EAttribute;
import org.eclipse.emf.ecore.EClass;
import org.eclipse.emf.ecore.EObject;
import org.eclipse.emf.ecore.EPackage;
import org.eclipse.emf.ecore.EReference;
import org.eclipse.emf.ecore.EcoreFactory;
import org.eclipse.emf.ecore.EcorePackage;
import org.eclipse.emf.ecore.change.util.ChangeRecorder;
import org.eclipse.emf.ecore.resource.Resource;
import org.eclipse.emf.ecore.resource.impl.ResourceImpl;

/**
 * Times EMF's change recorder over libraries of so many books: {@code EmfTimes SIZE..} prints the work, the size, and the best processor time in
 * nanoseconds. {@code bench/beside} runs it.
 */
public final class EmfTimes {
    private static final int EDITS = 100_000, TURNS = 20, TIMES = 10;

    private final EAttribute pages = EcoreFactory.eINSTANCE.createEAttribute();
    private final EReference books = EcoreFactory.eINSTANCE.createEReference();
    private final EClass book = eClass("Book"), library = eClass("Library");

    private EmfTimes() {
        pages.setName("pages");
        pages.setEType(EcorePackage.Literals.EINT);
        book.getEStructuralFeatures().add(pages);
        books.setName("books");
        books.setEType(book);
        books.setContainment(true);
        books.setUpperBound(-1);
        library.getEStructuralFeatures().add(books);
        EPackage lib = EcoreFactory.eINSTANCE.createEPackage();
        lib.setName("lib");
        lib.setNsURI("http://lib/1");
        lib.getEClassifiers().addAll(List.of(library, book));
    }

    private static EClass eClass(String name) {
        EClass made = EcoreFactory.eINSTANCE.createEClass();
        made.setName(name);
        return made;
    }

    /** A resource with one library of so many books. */
    private Resource resource(int size) {
        EObject root = library.getEPackage().getEFactoryInstance().create(library);
        @SuppressWarnings("unchecked")
        List<EObject> all = (List<EObject>) root.eGet(books);
        for (int number = 0; number < size; number++) {
            all.add(library.getEPackage().getEFactoryInstance().create(book));
        }
        Resource made = new ResourceImpl();
        made.getContents().add(root);
        return made;
    }

    @SuppressWarnings("unchecked")
    private List<EObject> booksOf(Resource resource) {
        return (List<EObject>) resource.getContents().get(0).eGet(books);
    }

    /** Changes books of a resource that is recorded. */
    private void edits(List<EObject> all, int first) {
        for (int number = 0; number < EDITS; number++) {
            all.get(number % all.size()).eSet(pages, first + number + 1);
        }
    }

    /** Begins a recording, changes two books, and ends it. */
    private void turns(Resource resource, ChangeRecorder recorder, int first) {
        List<EObject> all = booksOf(resource);
        for (int number = 0; number < TURNS; number++) {
            recorder.beginRecording(List.of(resource));
            all.get(number % 100).eSet(pages, first + 2 * number + 1);
            all.get(100 + number % 100).eSet(pages, first + 2 * number + 2);
            recorder.endRecording();
        }
    }

    /** The processor nanoseconds of the thread that does the work, without those of the collector and the compiler. */
    private static long timed(Runnable work) {
        ThreadMXBean threads = ManagementFactory.getThreadMXBean();
        long before = threads.getCurrentThreadCpuTime();
        work.run();
        return threads.getCurrentThreadCpuTime() - before;
    }

    /** Prints the times of a size, but not where the virtual machine is only to get warm. */
    private void measure(int size, boolean isPrinted) {
        Resource resource = resource(size);
        ChangeRecorder recorder = new ChangeRecorder(resource);
        List<EObject> all = booksOf(resource);
        long edit = Long.MAX_VALUE, turn = Long.MAX_VALUE;
        for (int time = 0; time < TIMES; time++) {
            int first = time * EDITS;
            edit = Math.min(edit, timed(() -> edits(all, first)) / EDITS);
        }
        recorder.endRecording();
        for (int time = 0; time < TIMES; time++) {
            int first = (TIMES + time) * EDITS;
            turn = Math.min(turn, timed(() -> turns(resource, recorder, first)) / TURNS);
        }
        if (isPrinted) {
            System.out.println("edit " + size + " " + edit);
            System.out.println("turn " + size + " " + turn);
        }
    }

    public static void main(String[] words) {
        EmfTimes times = new EmfTimes();
        times.measure(Integer.parseInt(words[0]), false);
        for (String word : words) {
            times.measure(Integer.parseInt(word), true);
        }
    }
}

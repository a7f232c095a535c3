import com.sun.jdi.Bootstrap;
import com.sun.jdi.Field;
import com.sun.jdi.ObjectReference;
import com.sun.jdi.ReferenceType;
import com.sun.jdi.VirtualMachine;
import com.sun.jdi.connect.Connector;
import com.sun.jdi.connect.LaunchingConnector;
import com.sun.jdi.event.AccessWatchpointEvent;
import com.sun.jdi.event.ClassPrepareEvent;
import com.sun.jdi.event.Event;
import com.sun.jdi.event.EventSet;
import com.sun.jdi.event.ExceptionEvent;
import com.sun.jdi.event.MethodEntryEvent;
import com.sun.jdi.event.MethodExitEvent;
import com.sun.jdi.event.ModificationWatchpointEvent;
import com.sun.jdi.event.VMDisconnectEvent;
import com.sun.jdi.request.ClassPrepareRequest;
import com.sun.jdi.request.EventRequestManager;
import com.sun.jdi.request.MethodEntryRequest;
import com.sun.jdi.request.MethodExitRequest;
import java.util.Map;

/**
 * Runs Main of a class path under the debugger's interface. From the entry into a method `go` to its end it prints each
 * load and store of a field that Main.java declares, with the value, each exception, and the result of `go`.
 */
class Traces {
    public static void main(String[] words) throws Exception {
        LaunchingConnector connector = Bootstrap.virtualMachineManager().defaultConnector();
        Map<String, Connector.Argument> arguments = connector.defaultArguments();
        arguments.get("main").setValue("Main");
        arguments.get("options").setValue("-cp " + words[0]);
        VirtualMachine machine = connector.launch(arguments);
        EventRequestManager requests = machine.eventRequestManager();
        ClassPrepareRequest prepared = requests.createClassPrepareRequest();
        prepared.addSourceNameFilter("Main.java");
        prepared.enable();
        requests.createExceptionRequest(null, true, true).enable();
        boolean isOn = false;
        while (true) {
            EventSet events = machine.eventQueue().remove();
            for (Event event : events) {
                if (event instanceof VMDisconnectEvent) return;
                if (event instanceof ClassPrepareEvent) watch(requests, ((ClassPrepareEvent) event).referenceType());
                if (event instanceof MethodEntryEvent) isOn |= ((MethodEntryEvent) event).method().name().equals("go");
                if (isOn) show(event);
                if (event instanceof MethodExitEvent) isOn &= !((MethodExitEvent) event).method().name().equals("go");
            }
            events.resume();
        }
    }

    static void watch(EventRequestManager requests, ReferenceType type) {
        for (Field field : type.fields()) {
            requests.createAccessWatchpointRequest(field).enable();
            requests.createModificationWatchpointRequest(field).enable();
        }
        MethodEntryRequest in = requests.createMethodEntryRequest();
        in.addClassFilter(type);
        in.enable();
        MethodExitRequest out = requests.createMethodExitRequest();
        out.addClassFilter(type);
        out.enable();
    }

    static void show(Event event) {
        if (event instanceof AccessWatchpointEvent) {
            AccessWatchpointEvent load = (AccessWatchpointEvent) event;
            System.out.println("  load " + name(load.object(), load.field()) + " " + load.valueCurrent());
        }
        if (event instanceof ModificationWatchpointEvent) {
            ModificationWatchpointEvent store = (ModificationWatchpointEvent) event;
            System.out.println("  store " + name(store.object(), store.field()) + " " + store.valueToBe());
        }
        if (event instanceof ExceptionEvent)
            System.out.println("  threw " + ((ExceptionEvent) event).exception().referenceType().name());
        if (event instanceof MethodExitEvent && ((MethodExitEvent) event).method().name().equals("go"))
            System.out.println("  gave " + ((MethodExitEvent) event).returnValue());
    }

    static String name(ObjectReference object, Field field) {
        String kind = field.isVolatile() ? "volatile " : field.isFinal() ? "final " : "plain ";
        String of = field.isStatic() ? field.declaringType().name() : object.referenceType().name() + "#" + object.uniqueID();
        return kind + of + "." + field.name();
    }
}

//! The cases: everything lent to one call, or everything that one law of document 01 speaks of.

use crate::laws;
use crate::show::{differing, shown, Named};
use facetgrove_model::{Cpu, Functions, Machine, Model, Told};
use std::fmt;

#[derive(Clone)]
pub enum Case {
    // One call, the tested functions against the model.
    Engine { machine: Machine, cycles: u32 },
    Press { machine: Machine },
    Interpreter { cpu: Cpu, instructions: u32 },
    Assemble { text: Vec<u8>, store: Vec<u32> },
    List { store: Vec<u32>, room: Vec<u8> },
    ImageRead { image: Vec<u8>, memory: Vec<u16> },
    ImageWrite { memory: Vec<u16>, room: Vec<u8> },
    // A law, of the tested functions alone.
    ListingBack { store: Vec<u32> },
    ImageBack { memory: Vec<u16> },
    NormalForms { machine: Machine, cycles: u32 },
    Instruction { machine: Machine },
}

impl Case {
    /// How the tested functions differ from document 01 here, if they do.
    pub fn difference(&self, tested: &dyn Functions) -> Option<String> {
        match self {
            Case::Engine { machine, cycles } => {
                compare(machine, |lent| tested.engine_run(lent, *cycles), |lent| Model.engine_run(lent, *cycles))
            }
            Case::Press { machine } => compare(machine, |lent| tested.press(lent), |lent| Model.press(lent))
                .or_else(|| compare(machine, |lent| tested.press(lent), |lent| tested.engine_run(lent, 1))),
            Case::Interpreter { cpu, instructions } => compare(
                cpu,
                |lent| tested.interpreter_run(lent, *instructions),
                |lent| Model.interpreter_run(lent, *instructions),
            ),
            Case::Assemble { text, store } => {
                compare(store, |lent| tested.micro_assemble(text, lent), |lent| Model.micro_assemble(text, lent))
            }
            Case::List { store, room } => {
                compare(room, |lent| tested.micro_list(store, lent), |lent| Model.micro_list(store, lent))
            }
            Case::ImageRead { image, memory } => {
                compare(memory, |lent| tested.image_read(image, lent), |lent| Model.image_read(image, lent))
            }
            Case::ImageWrite { memory, room } => {
                compare(room, |lent| tested.image_write(memory, lent), |lent| Model.image_write(memory, lent))
            }
            Case::ListingBack { store } => laws::listing_back(tested, store),
            Case::ImageBack { memory } => laws::image_back(tested, memory),
            Case::NormalForms { machine, cycles } => laws::normal_forms(tested, machine, *cycles),
            Case::Instruction { machine } => laws::instruction(tested, machine),
        }
    }
}

/// Calls two functions on copies of what is lent and compares what they tell and everything they leave.
pub fn compare<T: Clone + PartialEq + Named>(
    lent: &T,
    tested: impl Fn(&mut T) -> Told,
    model: impl Fn(&mut T) -> Told,
) -> Option<String> {
    let (mut by_tested, mut by_model) = (lent.clone(), lent.clone());
    let (tested_told, model_told) = (tested(&mut by_tested), model(&mut by_model));
    (tested_told != model_told || by_tested != by_model).then(|| {
        format!(
            "tested {tested_told:?}\nmodel  {model_told:?}\n{}",
            differing("tested", &by_tested, "model", &by_model)
        )
    })
}

impl fmt::Display for Case {
    fn fmt(&self, out: &mut fmt::Formatter) -> fmt::Result {
        match self {
            Case::Engine { machine, cycles } => {
                write!(out, "engine run of {cycles} cycles\n{}", machine_shown(machine))
            }
            Case::Press { machine } => write!(out, "press\n{}", machine_shown(machine)),
            Case::Interpreter { cpu, instructions } => {
                write!(out, "interpreter run of {instructions} instructions\n{}", shown(cpu))
            }
            Case::Assemble { text, store } => {
                write!(out, "assemble {} bytes: \"{}\"\nstore found: {}", text.len(), text.escape_ascii(), shown(store))
            }
            Case::List { store, room } => {
                write!(out, "list into a room of {} bytes\nstore: {}", room.len(), shown(store))
            }
            Case::ImageRead { image, memory } => {
                write!(out, "read image {image:02x?}\nmemory found: {}", shown(memory))
            }
            Case::ImageWrite { memory, room } => {
                write!(out, "write image into a room of {} bytes\nmemory: {}", room.len(), shown(memory))
            }
            Case::ListingBack { store } => write!(out, "a listing assembled\nstore: {}", shown(store)),
            Case::ImageBack { memory } => write!(out, "an image written, read and written\nmemory: {}", shown(memory)),
            Case::NormalForms { machine, cycles } => {
                write!(out, "{cycles} cycles of words and of their normal forms\n{}", machine_shown(machine))
            }
            Case::Instruction { machine } => {
                write!(out, "one instruction by both machines\n{}", machine_shown(machine))
            }
        }
    }
}

/// The printed microprogram is named, not shown word by word.
fn machine_shown(machine: &Machine) -> String {
    if machine.store == facetgrove::printed_store() {
        format!("printed store, {}", shown(&Machine { store: Vec::new(), ..machine.clone() }))
    } else {
        shown(machine)
    }
}

//! Sheets of the first form, whose flow words count scfh: how they are made into
//! sheets of the present form, and the writer that they had.
//!
//! What the paper leaves open is as it was settled with the request: the numbers
//! are those of the C call `edr_convert`; each is tried over the whole sheet; years,
//! ranges and the order of hours are left to the writer.

use crate::calendar::MOST_HOURS;
use crate::layout::FLOW;
use crate::write::{are_whole_hours, value_of, word, write_from, Form, Order, FLOW_PLACE, WORDS};

/// Makes a sheet of the first form one of the present form, or returns the number
/// of the refusal and leaves the sheet alone. Flow words change, and no others.
pub fn convert(sheet: &mut [u32]) -> Result<(), u32> {
    if sheet.len() > WORDS * MOST_HOURS as usize || !are_whole_hours(sheet) {
        return Err(31);
    }
    let flow_words = sheet.iter().skip(FLOW_PLACE).step_by(WORDS);
    let thousands = flow_words.map(|&flow| FLOW.recorded(value_of(flow).into()));
    let Some(flows) = thousands.collect::<Option<Vec<u128>>>() else {
        return Err(50);
    };
    for (hour, flow) in sheet.chunks_mut(WORDS).zip(flows) {
        hour[FLOW_PLACE] = word(FLOW_PLACE as u32, flow as u32);
    }
    Ok(())
}

/// The writer of sheets of the first form.
pub fn write_first_form(order: &Order, buffer: &mut [u8]) -> Result<usize, u32> {
    write_from(Form::First, order, buffer)
}

#[cfg(test)]
mod tests {
    use super::*;
    use crate::check::check;
    use crate::write::write;

    /// The paper's hour, with this flow, at this hour of the quarter.
    fn hour(hour_of_quarter: u32, flow: u32) -> [u32; WORDS] {
        let values = [hour_of_quarter * 128 + 50, 2_500, 2_000, 120, flow, 18_000];
        [0, 1, 2, 3, 4, 5].map(|kind| word(kind, values[kind as usize]))
    }

    /// A sheet of hours from the first of the quarter on, with these flows.
    fn sheet(flows: &[u32]) -> Vec<u32> {
        flows.iter().zip(0..).flat_map(|(&flow, rank)| hour(rank, flow)).collect()
    }

    fn order(words: Vec<u32>) -> Order {
        Order { year: 2005, quarter: 3, name: *b"STACK1", words }
    }

    /// The sheet after the call, if it converts.
    fn converted(sheet: &[u32]) -> Option<Vec<u32>> {
        let mut converted = sheet.to_vec();
        convert(&mut converted).ok()?;
        Some(converted)
    }

    /// The number of the refusal, which leaves every word as it was.
    #[track_caller]
    fn refusal(sheet: &[u32]) -> u32 {
        let mut words = sheet.to_vec();
        let number = convert(&mut words).expect_err("a refusal");
        assert_eq!(words, sheet);
        number
    }

    /// What the writer of this form answers, and its whole buffer.
    fn written(form: Form, order: &Order, room: usize) -> (Result<usize, u32>, Vec<u8>) {
        let mut buffer = vec![0xA5; room];
        let answer = match form {
            Form::First => write_first_form(order, &mut buffer),
            Form::Present => write(order, &mut buffer),
        };
        (answer, buffer)
    }

    #[test]
    fn flow_words_change_and_no_others() {
        assert_eq!(converted(&sheet(&[20_000_000, 0, 1_000])), Some(sheet(&[20_000, 0, 1])));
        assert_eq!(converted(&[]), Some(vec![]));
    }

    #[test]
    fn values_of_other_places_and_hours_are_not_looked_at() {
        for value in [0, 1, 0x1FFF_FFFF] {
            let of_flow =
                |flow| [0, 1, 2, 3, 4, 5].map(|kind| word(kind, if kind == 4 { flow } else { value }));
            let twice = |flow| [of_flow(flow), of_flow(flow)].concat();
            assert_eq!(converted(&twice(536_870_000)), Some(twice(536_870)));
        }
    }

    #[test]
    fn whole_hours_are_converted_up_to_2208() {
        let whole = sheet(&[20_000_000; 3]);
        for count in [1, 2, 3, 4, 5, 7, 8, 11, 13, 17] {
            assert_eq!(refusal(&whole[..count]), 31, "{count}");
        }
        let longest = sheet(&[20_000_000; 2_209]);
        assert_eq!(converted(&longest[..6 * 2_208]), Some(sheet(&[20_000; 2_208])));
        assert_eq!(refusal(&longest), 31);
        assert_eq!(refusal(&longest[..6 * 2_208 - 1]), 31);
        assert_eq!(refusal(&longest[..6 * 2_208 + 1]), 31);
    }

    #[test]
    fn each_word_has_the_kind_of_its_place() {
        let whole = sheet(&[20_000_000; 3]);
        for place in 0..whole.len() {
            for other in 1..8 {
                let mut words = whole.clone();
                words[place] ^= other << 29;
                assert_eq!(refusal(&words), 31, "{place}");
            }
        }
    }

    #[test]
    fn flow_is_a_whole_thousand() {
        for flow in [1, 500, 999, 20_000_500, 499_999_999, 500_000_001, 536_870_001, 0x1FFF_FFFF] {
            for rank in 0..3 {
                let mut flows = [20_000_000; 3];
                flows[rank] = flow;
                assert_eq!(refusal(&sheet(&flows)), 50, "{flow}");
            }
        }
    }

    #[test]
    fn kinds_are_tried_in_all_hours_before_flow() {
        for (uneven, unlike) in [(0, 1), (1, 0), (0, 0), (0, 2), (2, 0)] {
            let mut flows = [20_000_000; 3];
            flows[uneven] += 1;
            let mut words = sheet(&flows);
            assert_eq!(refusal(&words), 50);
            words[WORDS * unlike + 5] ^= 1 << 29;
            assert_eq!(refusal(&words), 31);
        }
        let mut words = sheet(&[20_000_001]);
        words.push(word(0, 178));
        assert_eq!(refusal(&words), 31);
    }

    /// Sheets with flows up to the first form's limit are written as they were,
    /// refusals and bytes of the buffer included.
    #[test]
    fn what_the_writer_answers_stays() {
        let mut answers = Vec::new();
        let others = [(0, 178), (0, 128), (0, 128 * 2_208 + 50), (1, 99_999), (3, 1), (3, 0), (5, 4_999)];
        for flow in [0, 1_000, 20_000_000, 75_000_000, 499_999_000, 500_000_000] {
            for (place, value) in others {
                let mut first = order(sheet(&[20_000_000, flow]));
                first.words[WORDS + place] = word(place as u32, value);
                let present = order(converted(&first.words).unwrap());
                for room in [0, 710, 711, 800] {
                    let answer = written(Form::First, &first, room);
                    assert_eq!(answer, written(Form::Present, &present, room), "{flow} {place} {value}");
                    answers.push(answer.0);
                }
            }
        }
        for answer in [Ok(711), Err(31), Err(32), Err(33), Err(34)] {
            assert!(answers.contains(&answer), "{answer:?}");
        }
    }

    #[test]
    fn larger_flows_are_written_that_were_refused() {
        for flow in [500_001_000, 536_870_000] {
            let mut first = order(sheet(&[flow]));
            first.words[1] = word(1, 100);
            first.words[3] = word(3, 30);
            let mut present = order(converted(&first.words).unwrap());
            assert_eq!(written(Form::First, &first, 393), (Err(32), vec![0xA5; 393]));
            let (answer, report) = written(Form::Present, &present, 393);
            assert_eq!(answer, Ok(393));
            assert!(check(&report).to_string().starts_with("accepted 1 "));
            present.year = 1994;
            assert_eq!(written(Form::Present, &present, 393).0, Err(31));
        }
    }

    #[test]
    fn the_first_form_takes_whole_thousands_up_to_its_limit() {
        for (flow, number) in
            [(0, None), (1, Some(32)), (999, Some(32)), (1_000, None), (20_000_500, Some(32))]
                .into_iter()
                .chain([(60_000_000, None), (500_000_000, None), (500_000_001, Some(32))])
                .chain([(500_001_000, Some(32)), (0x1FFF_FFFF, Some(32))])
        {
            assert_eq!(written(Form::First, &order(sheet(&[flow])), 393).0.err(), number, "{flow}");
        }
    }

    #[test]
    fn a_sheet_may_be_converted_twice() {
        let once = converted(&sheet(&[20_000_000])).unwrap();
        assert_eq!(once, sheet(&[20_000]));
        let twice = converted(&once).unwrap();
        assert_eq!(twice, sheet(&[20]));
        assert_eq!(refusal(&twice), 50);
    }
}

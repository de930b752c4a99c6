/**
 * @file laz.hpp
 * Whole LAS and LAZ files in C++17, over the calls of las.h.
 *
 *     laz::Reader in("tile.laz", 4);
 *     laz::Writer out("ground.laz", in.plain_head(), 50000, LAZ_SETS_COUNTS, 4);
 *     for (const laz::Records &records : in.batches(1000000))
 *         for (laz::Record record : records)
 *             if (record.classification() == 2)
 *                 out.put(record);
 *     out.finish();
 *
 * Every call that is not done throws laz::Error; memory that is not there throws std::bad_alloc. Objects may be moved,
 * and not copied. A reader and a writer are used by one thread at a time.
 */
#ifndef LAZ_HPP
#define LAZ_HPP

#include "las.h"
#include <cstring>
#include <iterator>
#include <memory>
#include <new>
#include <stdexcept>
#include <string>
#include <vector>

namespace laz {

/** Why a call was not done. */
class Error : public std::runtime_error {
public:
    Error(const laz_error &error, const std::string &name) : std::runtime_error(text(error, name)), error_(error) {}

    /** The answer, the cause and the chunk. */
    const laz_error &error() const noexcept { return error_; }

private:
    static std::string text(const laz_error &error, const std::string &name)
    {
        std::string said(laz_error_text(&error, name.c_str(), nullptr, 0) + 1, '\0');
        laz_error_text(&error, name.c_str(), said.data(), said.size());
        said.pop_back();
        return said;
    }

    laz_error error_;
};

namespace detail {

inline void need(std::uint32_t answer, const laz_error &error, const std::string &name)
{
    if (answer == LAZ_NO_MEMORY)
        throw std::bad_alloc();
    if (answer != LAZ_DONE)
        throw Error(error, name);
}

} // namespace detail

/** A record, where it stands. It is valid as long as its bytes are. */
class Record {
public:
    Record(const std::uint8_t *bytes, const laz_head *head) noexcept : bytes_(bytes), head_(head) {}

    const std::uint8_t *bytes() const noexcept { return bytes_; }
    std::size_t size() const noexcept { return head_->record_length; }

    /** The raw coordinates. */
    std::int32_t X() const noexcept { return at<std::int32_t>(0); }
    std::int32_t Y() const noexcept { return at<std::int32_t>(4); }
    std::int32_t Z() const noexcept { return at<std::int32_t>(8); }
    std::uint16_t intensity() const noexcept { return at<std::uint16_t>(12); }
    unsigned return_number() const noexcept { return bytes_[14] & 7U; }
    unsigned number_of_returns() const noexcept { return bytes_[14] >> 3 & 7U; }
    bool scan_direction_flag() const noexcept { return (bytes_[14] & 64) != 0; }
    bool edge_of_flight_line() const noexcept { return (bytes_[14] & 128) != 0; }
    unsigned classification() const noexcept { return bytes_[15] & 31U; }
    bool synthetic() const noexcept { return (bytes_[15] & 32) != 0; }
    bool key_point() const noexcept { return (bytes_[15] & 64) != 0; }
    bool withheld() const noexcept { return (bytes_[15] & 128) != 0; }
    /** In degrees. */
    int scan_angle_rank() const noexcept { return at<std::int8_t>(16); }
    unsigned user_data() const noexcept { return bytes_[17]; }
    std::uint16_t point_source_id() const noexcept { return at<std::uint16_t>(18); }
    /** Of the formats 1 and 3; 0 of the others. */
    double gps_time() const noexcept { return head_->format % 2 == 1 ? at<double>(20) : 0; }
    /** Of the formats 2 and 3; 0 of the others. */
    std::uint16_t red() const noexcept { return colour(0); }
    std::uint16_t green() const noexcept { return colour(1); }
    std::uint16_t blue() const noexcept { return colour(2); }
    /** The extra bytes: laz_head::extra of them. */
    const std::uint8_t *extra_bytes() const noexcept { return bytes_ + head_->record_length - head_->extra; }

private:
    template <typename T> T at(std::size_t place) const noexcept
    {
        T value;
        std::memcpy(&value, bytes_ + place, sizeof value);
        return value;
    }

    std::uint16_t colour(std::size_t which) const noexcept
    {
        return head_->format < 2 ? std::uint16_t(0) : at<std::uint16_t>((head_->format == 2 ? 20U : 28U) + 2 * which);
    }

    const std::uint8_t *bytes_;
    const laz_head *head_;
};

/** Records one after another, as they stand in a plain file. */
class Records {
public:
    /** Goes over records. */
    class iterator {
    public:
        using iterator_category = std::input_iterator_tag;
        using value_type = Record;
        using difference_type = std::ptrdiff_t;
        using pointer = void;
        using reference = Record;

        iterator(const std::uint8_t *bytes, const laz_head *head) noexcept : bytes_(bytes), head_(head) {}
        Record operator*() const noexcept { return Record(bytes_, head_); }
        iterator &operator++() noexcept
        {
            bytes_ += head_->record_length;
            return *this;
        }
        iterator operator++(int) noexcept
        {
            iterator before = *this;
            ++*this;
            return before;
        }
        bool operator==(const iterator &other) const noexcept { return bytes_ == other.bytes_; }
        bool operator!=(const iterator &other) const noexcept { return bytes_ != other.bytes_; }

    private:
        const std::uint8_t *bytes_;
        const laz_head *head_;
    };

    Records(const std::uint8_t *bytes, std::uint32_t count, const laz_head *head) noexcept
        : bytes_(bytes), count_(count), head_(head) {}

    const std::uint8_t *bytes() const noexcept { return bytes_; }
    std::uint32_t size() const noexcept { return count_; }
    Record operator[](std::uint32_t place) const noexcept { return Record(bytes_ + place * width(), head_); }
    iterator begin() const noexcept { return iterator(bytes_, head_); }
    iterator end() const noexcept { return iterator(bytes_ + count_ * width(), head_); }

private:
    std::size_t width() const noexcept { return head_->record_length; }

    const std::uint8_t *bytes_;
    std::uint32_t count_;
    const laz_head *head_;
};

/** A file that is read. */
class Reader {
public:
    /** Opens the regular file of this name, with `threads` threads, 1 to 256. */
    explicit Reader(const std::string &name, unsigned threads = 1) : name_(name)
    {
        laz_reader *made = nullptr;
        laz_error error;
        detail::need(laz_reader_open_path(name.c_str(), threads, &made, &error), error, name);
        reader_.reset(made);
    }

    /** Opens a file that is reached by calls of the caller's, with its threads if there are some. */
    explicit Reader(const laz_io &io, const laz_pool *pool = nullptr, const std::string &name = "file") : name_(name)
    {
        laz_reader *made = nullptr;
        laz_error error;
        detail::need(laz_reader_open(&io, pool, &made, &error), error, name);
        reader_.reset(made);
    }

    const laz_head &head() const noexcept { return *laz_reader_head(reader_.get()); }
    std::uint32_t size() const noexcept { return head().points; }

    /** The bytes of the head of the plain file. */
    std::vector<std::uint8_t> plain_head() const
    {
        std::size_t length = 0;
        const std::uint8_t *bytes = laz_reader_plain_head(reader_.get(), &length);
        return std::vector<std::uint8_t>(bytes, bytes + length);
    }

    /** The records from a place on and before another one, as bytes. Only the chunks that they are in are read. */
    std::vector<std::uint8_t> records(std::uint32_t start, std::uint32_t stop)
    {
        std::vector<std::uint8_t> bytes(start < stop && stop <= size() ? std::size_t(stop - start) * width() : 0);
        std::uint32_t whole = 0;
        laz_error error;
        detail::need(laz_reader_records(reader_.get(), start, stop, bytes.data(), &whole, &error), error, name_);
        return bytes;
    }

    /** All records from the first one on, `most` at a time: a range for `for`, once. */
    class Batches {
    public:
        class iterator {
        public:
            using iterator_category = std::input_iterator_tag;
            using value_type = Records;
            using difference_type = std::ptrdiff_t;
            using pointer = const Records *;
            using reference = const Records &;

            explicit iterator(Batches *batches) noexcept : batches_(batches) {}
            const Records &operator*() const noexcept { return batches_->now_; }
            const Records *operator->() const noexcept { return &batches_->now_; }
            iterator &operator++()
            {
                batches_->read();
                return *this;
            }
            void operator++(int) { ++*this; }
            /** Whether both are at the end, or neither is. */
            bool operator==(const iterator &other) const noexcept { return is_end() == other.is_end(); }
            bool operator!=(const iterator &other) const noexcept { return is_end() != other.is_end(); }

        private:
            bool is_end() const noexcept { return batches_ == nullptr || batches_->now_.size() == 0; }
            Batches *batches_;
        };

        Batches(Reader &reader, std::uint32_t most)
            : reader_(&reader), most_(most), bytes_(std::size_t(most) * reader.width()),
              now_(bytes_.data(), 0, &reader.head()) {}

        iterator begin()
        {
            laz_reader_seek(reader_->reader_.get(), 0);
            read();
            return iterator(this);
        }
        iterator end() noexcept { return iterator(nullptr); }

    private:
        void read()
        {
            std::uint32_t count = 0;
            laz_error error;
            detail::need(laz_reader_next(reader_->reader_.get(), bytes_.data(), most_, &count, &error), error,
                         reader_->name_);
            now_ = Records(bytes_.data(), count, &reader_->head());
        }

        Reader *reader_;
        std::uint32_t most_;
        std::vector<std::uint8_t> bytes_;
        Records now_;
    };

    /** All records, `most` at a time. What a batch lends is valid until the next one. */
    Batches batches(std::uint32_t most = 1000000) { return Batches(*this, most == 0 ? 1 : most); }

private:
    struct Close {
        void operator()(laz_reader *reader) const noexcept { laz_reader_close(reader); }
    };

    std::size_t width() const noexcept { return head().record_length; }

    std::string name_;
    std::unique_ptr<laz_reader, Close> reader_;
};

/** A file that is written. It takes its name when `finish` has made it whole; without that, nothing is left of it. */
class Writer {
public:
    /** Begins a file under the head of a plain file, in chunks of `chunk` points, or plain with 0. `sets` is a sum of
     * enum laz_sets. */
    Writer(const std::string &name, const std::vector<std::uint8_t> &head, std::uint32_t chunk,
           std::uint32_t sets = LAZ_SETS_COUNTS | LAZ_SETS_BOX, unsigned threads = 1)
        : name_(name)
    {
        laz_writer *made = nullptr;
        laz_error error;
        std::uint32_t answer =
            laz_writer_create_path(name.c_str(), threads, head.data(), head.size(), chunk, sets, &made, &error);
        detail::need(answer, error, name);
        writer_.reset(made);
    }

    void put(const std::uint8_t *records, std::uint32_t count)
    {
        laz_error error;
        detail::need(laz_writer_put(writer_.get(), records, count, &error), error, name_);
    }
    void put(const Records &records) { put(records.bytes(), records.size()); }
    void put(const Record &record) { put(record.bytes(), 1); }

    /** Makes the file whole: it has its name then, and is on the disk. */
    void finish()
    {
        laz_error error;
        detail::need(laz_writer_finish(writer_.get(), &error), error, name_);
    }

private:
    struct Close {
        void operator()(laz_writer *writer) const noexcept { laz_writer_close(writer); }
    };

    std::string name_;
    std::unique_ptr<laz_writer, Close> writer_;
};

} // namespace laz

#endif
